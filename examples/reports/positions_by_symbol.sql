-- What all accounts together hold of each security at the end of a day.
-- Options: --day --account --customer --broker --symbol
SELECT SYMBOL, S_NAME AS NAME, S_EX_ID AS EXCHANGE, S_SECTOR AS SECTOR, count(*) AS ACCOUNTS,
    ifnull(sum(SHARES) FILTER (WHERE SHARES > 0), 0) AS LONG,
    ifnull(sum(SHARES) FILTER (WHERE SHARES < 0), 0) AS SHORT, sum(SHARES) AS SHARES,
    amount_sum(COST) AS COST, amount_text(LAST_PRICE) AS LAST_PRICE, amount_sum(WORTH) AS WORTH,
    amount_sum(WORTH - COST) AS UNREALISED
FROM POSITION JOIN SECURITY ON S_SYMB = SYMBOL
GROUP BY SYMBOL
ORDER BY SYMBOL;
