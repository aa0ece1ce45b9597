-- The lots that a trade would close now, in the order of closing.
SELECT abs(H_QTY) AS SHARES, H_PRICE AS PRICE FROM HOLDING
WHERE H_CA_ID = :account AND H_S_SYMB = :symbol AND CASE WHEN :is_buy THEN H_QTY < 0 ELSE H_QTY > 0 END
ORDER BY CASE WHEN :is_lifo THEN -H_DTS ELSE H_DTS END
