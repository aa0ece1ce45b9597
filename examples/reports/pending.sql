-- The orders that are pending at the end of a day, with their age.
-- Options: --day --account --customer --broker --symbol
SELECT TRADE, time_text(ORDERED) AS ORDERED, AS_OF - DAY AS DAYS, ACCOUNT, CUSTOMER, BROKER, TYPE,
    SYMBOL, S_SECTOR AS SECTOR, QTY AS SHARES, amount_text(PRICE) AS PRICE,
    amount_text(QTY * PRICE) AS VALUE, amount_text(LAST_PRICE) AS LAST_PRICE, SETTLES_BY, EXECUTOR
FROM ASKED JOIN ORDERED JOIN SECURITY ON S_SYMB = SYMBOL JOIN PRICE USING (SYMBOL)
WHERE STATUS = 'PNDG'
ORDER BY TRADE;
