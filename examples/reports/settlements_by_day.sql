-- What settles on each day of a period: the shares of each security, and the amounts.
-- Options: --day --from --to --account --customer --broker --symbol
SELECT day_text(DUE) AS DUE, SYMBOL, SETTLES_BY, count(*) AS TRADES,
    ifnull(sum(SHARES) FILTER (WHERE SHARES > 0), 0) AS SHARES_IN,
    ifnull(sum(SHARES) FILTER (WHERE SHARES < 0), 0) AS SHARES_OUT, sum(SHARES) AS SHARES,
    ifnull(amount_sum(SETTLEMENT) FILTER (WHERE SETTLEMENT > 0), '0.00') AS RECEIVED,
    ifnull(amount_sum(SETTLEMENT) FILTER (WHERE SETTLEMENT < 0), '0.00') AS PAID,
    amount_sum(SETTLEMENT) AS SETTLEMENT
FROM ASKED JOIN COMPLETED
WHERE DUE BETWEEN FIRST_DAY AND LAST_DAY
GROUP BY COMPLETED.DUE, SYMBOL, SETTLES_BY
ORDER BY COMPLETED.DUE, SYMBOL, SETTLES_BY;
