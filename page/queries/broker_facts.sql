-- The lines of a broker that `brk explain` has too.
SELECT 'Commissions' AS LABEL, amount_text(B_COMM_TOTAL) AS VALUE FROM BROKER WHERE B_ID = :broker
UNION ALL SELECT 'Trades', CAST(B_NUM_TRADES AS TEXT) FROM BROKER WHERE B_ID = :broker
UNION ALL SELECT 'Trade ' || (row_number() OVER (ORDER BY T_DTS, T_ID) - 1),
    time_text(T_DTS) || ' ' || T_ID || ' ' || T_CA_ID || ' ' || amount_text(T_COMM) || ' '
    || amount_text(sum(T_COMM) OVER (ORDER BY T_DTS, T_ID))
    FROM TRADE JOIN CUSTOMER_ACCOUNT ON CA_ID = T_CA_ID WHERE CA_B_ID = :broker AND T_ST_ID = 'CMPT'
