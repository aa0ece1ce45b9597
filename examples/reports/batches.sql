-- The batches, with the rows of each that were accepted in a period.
-- Options: --day --from --to
SELECT K_BATCH AS BATCH, count(*) AS ACCEPTED, min(K_N) AS FIRST_ROW, max(K_N) AS LAST_ROW,
    time_text(min(STAMP)) AS FIRST_TIME, time_text(max(STAMP)) AS LAST_TIME,
    count(*) FILTER (WHERE KIND = 'order') AS ORDERS, count(*) FILTER (WHERE KIND = 'result') AS RESULTS,
    count(*) FILTER (WHERE KIND = 'cancel') AS CANCELS, count(*) FILTER (WHERE KIND = 'feed') AS FEEDS,
    count(*) FILTER (WHERE KIND = 'deposit') AS DEPOSITS,
    count(*) FILTER (WHERE KIND = 'withdraw') AS WITHDRAWALS,
    count(*) FILTER (WHERE KIND NOT IN ('order', 'result', 'cancel', 'feed', 'deposit', 'withdraw')) AS OTHERS
FROM ASKED JOIN (SELECT K_BATCH, K_N, CAST(K_LINE AS INTEGER) AS STAMP,
                     substr(K_ROW, 1, instr(K_ROW || char(31), char(31)) - 1) AS KIND FROM KEPT)
WHERE STAMP / 86400000 BETWEEN FIRST_DAY AND LAST_DAY
GROUP BY K_BATCH
ORDER BY min(STAMP);
