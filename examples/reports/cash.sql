-- The cash rows of a period, each with the balance of its account after it.
-- Options: --day --from --to --account --customer --broker
SELECT CASH_ROW, time_text(STAMP) AS POSTED, ACCOUNT, CUSTOMER, BROKER, TRADE,
    amount_text(AMOUNT) AS AMOUNT, amount_text(BALANCE) AS BALANCE, NAME
FROM ASKED JOIN CASH
WHERE DAY BETWEEN FIRST_DAY AND LAST_DAY
ORDER BY CASH_ROW;
