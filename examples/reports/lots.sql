-- The lots that are open at the end of a day.
-- Options: --day --account --customer --broker --symbol
SELECT LOT, time_text(OPENED) AS OPENED, AS_OF - OPENED / 86400000 AS DAYS, ACCOUNT, CUSTOMER, BROKER,
    SYMBOL, SHARES, amount_text(LOT.PRICE) AS PRICE, amount_text(SHARES * LOT.PRICE) AS COST,
    amount_text(LAST_PRICE) AS LAST_PRICE, amount_text(SHARES * LAST_PRICE) AS WORTH,
    amount_text(SHARES * (LAST_PRICE - LOT.PRICE)) AS UNREALISED
FROM ASKED JOIN LOT JOIN PRICE USING (SYMBOL)
ORDER BY ACCOUNT, SYMBOL, LOT.OPENED;
