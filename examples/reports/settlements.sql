-- The trades that settle in a period, by their due day.
-- Options: --day --from --to --account --customer --broker --symbol
SELECT day_text(DUE) AS DUE, TRADE, day_text(DAY) AS COMPLETED, ACCOUNT, CUSTOMER, BROKER, TYPE, SYMBOL,
    SHARES, amount_text(PRICE) AS PRICE, amount_text(SETTLEMENT) AS SETTLEMENT, SETTLES_BY, CASH_TYPE
FROM ASKED JOIN COMPLETED
WHERE DUE BETWEEN FIRST_DAY AND LAST_DAY
ORDER BY COMPLETED.DUE, TRADE;
