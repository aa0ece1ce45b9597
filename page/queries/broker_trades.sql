-- The completed trades of a broker's accounts, the newest first.
SELECT T_ID AS TRADE, time_text(T_DTS) AS COMPLETED, T_CA_ID AS ACCOUNT, T_S_SYMB AS SYMBOL, amount_text(T_COMM) AS COMMISSION,
    amount_text(T_CHRG) AS CHARGE
FROM TRADE JOIN CUSTOMER_ACCOUNT ON CA_ID = T_CA_ID
WHERE CA_B_ID = :broker AND T_ST_ID = 'CMPT'
ORDER BY T_DTS DESC
