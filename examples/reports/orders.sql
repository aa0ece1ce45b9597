-- The orders of a period, each with its last status.
-- Options: --day --from --to --account --customer --broker --symbol
SELECT TRADE, time_text(O.ORDERED) AS ORDERED, STATUS, time_text(SINCE) AS SINCE, ACCOUNT, CUSTOMER,
    BROKER, TYPE, SYMBOL, QTY AS SHARES, amount_text(PRICE) AS PRICE, amount_text(QTY * PRICE) AS VALUE,
    SETTLES_BY, EXECUTOR
FROM ASKED JOIN ORDERED AS O
WHERE O.ORDERED / 86400000 BETWEEN FIRST_DAY AND LAST_DAY
ORDER BY TRADE;
