-- The trades that were completed in a period, by their completion.
-- Options: --day --from --to --account --customer --broker --symbol
SELECT TRADE, time_text(STAMP) AS COMPLETED, ACCOUNT, CUSTOMER, BROKER, TYPE, SYMBOL, SHARES,
    amount_text(PRICE) AS PRICE, amount_text(VALUE) AS VALUE, amount_text(CHARGE) AS CHARGE,
    amount_text(COMMISSION) AS COMMISSION, amount_text(ifnull(GAIN, 0)) AS GAIN,
    amount_text(TAX) AS TAX, amount_text(WITHHELD) AS WITHHELD, amount_text(SETTLEMENT) AS SETTLEMENT,
    day_text(DUE) AS DUE, SETTLES_BY, EXECUTOR
FROM ASKED JOIN COMPLETED LEFT JOIN GAIN USING (TRADE)
WHERE DAY BETWEEN FIRST_DAY AND LAST_DAY
ORDER BY STAMP;
