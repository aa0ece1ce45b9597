-- The realised gains and the taxes of each customer in each year, by the tax status of the account.
-- Options: --day --from --to --customer
SELECT substr(day_text(DAY), 1, 4) AS YEAR, CUSTOMER, C_L_NAME AS LAST, C_F_NAME AS FIRST,
    C_TAX_ID AS TAX_ID, TAX_STATUS, count(*) AS TRADES,
    ifnull(amount_sum(GAIN) FILTER (WHERE GAIN > 0), '0.00') AS PROFITS,
    ifnull(amount_sum(GAIN) FILTER (WHERE GAIN < 0), '0.00') AS LOSSES, amount_sum(GAIN) AS GAIN,
    amount_sum(TAX) AS TAX, amount_sum(WITHHELD) AS WITHHELD
FROM ASKED JOIN COMPLETED JOIN GAIN USING (TRADE) JOIN CUSTOMER AS C ON C_ID = CUSTOMER
WHERE DAY BETWEEN FIRST_DAY AND LAST_DAY
GROUP BY 1, CUSTOMER, TAX_STATUS
ORDER BY 1, CUSTOMER, TAX_STATUS;
