-- The lots of an account at the end of the day :last.
SELECT SYMBOL, LOT, SHARES, amount_text(LOT.PRICE) AS PRICE, amount_text(LAST_PRICE) AS LAST_PRICE,
    amount_text(SHARES * LAST_PRICE) AS WORTH
FROM LOT JOIN PRICE USING (SYMBOL) ORDER BY SYMBOL, LOT.OPENED
