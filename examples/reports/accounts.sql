-- The accounts, with their cash and their holdings at the end of a day.
-- Options: --day --account --customer --broker
SELECT ACCOUNT, NAME, CUSTOMER, C_L_NAME AS LAST, C_F_NAME AS FIRST, BROKER, TAX_STATUS,
    day_text(ADDED / 86400000) AS ADDED, amount_text(OPENING) AS OPENING,
    count(*) FILTER (WHERE KIND = 'cash') AS CASH_ROWS,
    amount_sum(CENTS) FILTER (WHERE KIND IN ('opening', 'cash')) AS BALANCE,
    ifnull(amount_sum(CENTS) FILTER (WHERE KIND = 'holdings'), '0.00') AS HOLDINGS,
    amount_sum(CENTS) FILTER (WHERE KIND IN ('opening', 'cash', 'holdings')) AS ASSETS,
    ifnull(amount_sum(CENTS) FILTER (WHERE KIND = 'margin'), '0.00') AS MARGIN
FROM CHOSEN JOIN PART USING (ACCOUNT) JOIN CUSTOMER ON C_ID = CUSTOMER
GROUP BY ACCOUNT
ORDER BY ACCOUNT;
