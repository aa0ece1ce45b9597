-- The shares that trades closed in a period, lot by lot, with their realised gains.
-- Options: --day --from --to --account --customer --broker --symbol
SELECT TRADE, time_text(STAMP) AS COMPLETED, ACCOUNT, CUSTOMER, BROKER, TAX_STATUS, SYMBOL, LOT,
    time_text(OPENED) AS OPENED, DAY - OPENED / 86400000 AS DAYS, CLOSING.SHARES AS SHARES,
    amount_text(BOUGHT) AS BUY_VALUE, amount_text(SOLD) AS SELL_VALUE, amount_text(SOLD - BOUGHT) AS GAIN
FROM ASKED JOIN COMPLETED JOIN CLOSING USING (TRADE)
WHERE DAY BETWEEN FIRST_DAY AND LAST_DAY
ORDER BY STAMP, CLOSING.OPENED;
