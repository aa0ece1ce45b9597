-- The commissions of each broker in each month.
-- Options: --day --from --to --broker
SELECT substr(day_text(DAY), 1, 7) AS MONTH, BROKER, B_NAME AS NAME, count(*) AS TRADES,
    amount_sum(abs(VALUE)) AS TURNOVER, amount_sum(CHARGE) AS CHARGES, amount_sum(COMMISSION) AS COMMISSION
FROM ASKED JOIN COMPLETED JOIN BROKER AS B ON B_ID = BROKER
WHERE DAY BETWEEN FIRST_DAY AND LAST_DAY
GROUP BY 1, BROKER
ORDER BY 1, BROKER;
