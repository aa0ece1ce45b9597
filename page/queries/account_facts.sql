-- The lines of an account that `brk explain` has too.
SELECT 'Opening' AS LABEL, amount_text(CA_OPEN) AS VALUE FROM CUSTOMER_ACCOUNT WHERE CA_ID = :account
UNION ALL SELECT 'Balance', amount_text(CA_BAL) FROM CUSTOMER_ACCOUNT WHERE CA_ID = :account
UNION ALL SELECT 'Holdings', ifnull(amount_sum(HS_QTY * LT_PRICE), '0.00')
    FROM HOLDING_SUMMARY JOIN LAST_TRADE ON LT_S_SYMB = HS_S_SYMB WHERE HS_CA_ID = :account
UNION ALL SELECT 'Assets', amount_sum(CENTS) FROM (
    SELECT CA_BAL AS CENTS FROM CUSTOMER_ACCOUNT WHERE CA_ID = :account UNION ALL SELECT HS_QTY * LT_PRICE
    FROM HOLDING_SUMMARY JOIN LAST_TRADE ON LT_S_SYMB = HS_S_SYMB WHERE HS_CA_ID = :account)
UNION ALL SELECT 'Posted ' || (row_number() OVER (ORDER BY CM_ID) - 1),
    time_text(CM_DTS) || ' ' || CM_ID || ' ' || ifnull(CM_T_ID, '-') || ' ' || amount_text(CM_AMT) || ' '
    || amount_text(CA_OPEN + sum(CM_AMT) OVER (ORDER BY CM_ID))
    FROM CASH_MOVE JOIN CUSTOMER_ACCOUNT ON CA_ID = CM_CA_ID WHERE CM_CA_ID = :account
