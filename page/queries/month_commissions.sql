-- The commissions of each broker from :first to :last, by the completion of the trades.
SELECT B_ID AS BROKER, B_NAME AS NAME, count(*) AS TRADES,
    sum_text(sum(T_CHRG / 1000000), sum(T_CHRG % 1000000)) AS CHARGES,
    sum_text(sum(T_COMM / 1000000), sum(T_COMM % 1000000)) AS COMMISSION
FROM TRADE JOIN CUSTOMER_ACCOUNT ON CA_ID = T_CA_ID JOIN BROKER ON B_ID = CA_B_ID
WHERE T_ST_ID = 'CMPT' AND T_DTS >= :first * 86400000 AND T_DTS < (:last + 1) * 86400000
GROUP BY B_ID
ORDER BY B_ID
