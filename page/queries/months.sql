-- The months in which an account had cash rows or orders.
SELECT DISTINCT substr(day_text(DAY), 1, 7) AS MONTH FROM (
    SELECT DISTINCT CM_DTS / 86400000 AS DAY FROM CASH_MOVE WHERE CM_CA_ID = :account
    UNION SELECT DISTINCT T_DTS / 86400000 FROM TRADE WHERE T_CA_ID = :account)
ORDER BY MONTH DESC
