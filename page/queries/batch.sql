-- The rows of a batch that were accepted.
SELECT K_N AS N, time_text(CAST(K_LINE AS INTEGER)) AS BOOKED, replace(K_ROW, char(31), ',') AS FIELDS, K_LINE AS REPLY
FROM KEPT WHERE K_BATCH = :batch
ORDER BY K_N
