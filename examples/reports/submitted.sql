-- The orders that were submitted and have no result at the end of a day, with their age.
-- Options: --day --account --customer --broker --symbol
SELECT TRADE, time_text(ORDERED) AS ORDERED, time_text(SINCE) AS SUBMITTED, AS_OF - DAY AS DAYS, ACCOUNT,
    CUSTOMER, BROKER, TYPE, SYMBOL, S_EX_ID AS EXCHANGE, QTY AS SHARES, amount_text(PRICE) AS PRICE,
    amount_text(QTY * PRICE) AS VALUE, amount_text(LAST_PRICE) AS LAST_PRICE, SETTLES_BY, EXECUTOR
FROM ASKED JOIN ORDERED JOIN SECURITY ON S_SYMB = SYMBOL JOIN PRICE USING (SYMBOL)
WHERE STATUS = 'SBMT'
ORDER BY TRADE;
