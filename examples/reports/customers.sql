-- The customers, with the cash and the holdings of their accounts at the end of a day.
-- Options: --day --customer
SELECT C_ID AS CUSTOMER, C_L_NAME AS LAST, C_F_NAME AS FIRST, C_TAX_ID AS TAX_ID, C_TIER AS TIER,
    count(*) FILTER (WHERE KIND = 'opening') AS ACCOUNTS,
    ifnull(amount_sum(CENTS) FILTER (WHERE KIND IN ('opening', 'cash')), '0.00') AS BALANCE,
    ifnull(amount_sum(CENTS) FILTER (WHERE KIND = 'holdings'), '0.00') AS HOLDINGS,
    ifnull(amount_sum(CENTS) FILTER (WHERE KIND IN ('opening', 'cash', 'holdings')), '0.00') AS ASSETS,
    ifnull(amount_sum(CENTS) FILTER (WHERE KIND = 'margin'), '0.00') AS MARGIN
FROM ASKED JOIN CUSTOMER LEFT JOIN (CHOSEN JOIN PART USING (ACCOUNT)) ON CUSTOMER = C_ID
WHERE ONLY_CUSTOMER IS NULL OR C_ID = ONLY_CUSTOMER
GROUP BY C_ID
ORDER BY C_ID;
