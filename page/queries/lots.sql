-- The lots that an account holds of a security, the oldest first.
SELECT H_T_ID AS LOT, time_text(H_DTS) AS OPENED, H_QTY AS SHARES, amount_text(H_PRICE) AS PRICE,
    amount_text(H_QTY * H_PRICE) AS COST, amount_text(H_QTY * LT_PRICE) AS WORTH,
    amount_text(H_QTY * (LT_PRICE - H_PRICE)) AS UNREALISED
FROM HOLDING JOIN LAST_TRADE ON LT_S_SYMB = H_S_SYMB
WHERE H_CA_ID = :account AND H_S_SYMB = :symbol
ORDER BY H_DTS
