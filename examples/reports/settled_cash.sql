-- The cash of each account at the end of a day, and what of it has not settled.
-- Options: --day --account --customer --broker
SELECT ACCOUNT, NAME, CUSTOMER, BROKER,
    amount_sum(CENTS) FILTER (WHERE KIND <> 'unsettled') AS BALANCE,
    ifnull(amount_sum(CENTS) FILTER (WHERE KIND = 'unsettled' AND CENTS > 0), '0.00') AS TO_RECEIVE,
    ifnull(amount_sum(CENTS) FILTER (WHERE KIND = 'unsettled' AND CENTS < 0), '0.00') AS TO_PAY,
    amount_sum(CASE KIND WHEN 'unsettled' THEN -CENTS ELSE CENTS END) AS SETTLED
FROM CHOSEN JOIN (
    SELECT ACCOUNT, KIND, CENTS FROM PART WHERE KIND IN ('opening', 'cash')
    UNION ALL
    SELECT ACCOUNT, 'unsettled', SETTLEMENT FROM ASKED JOIN COMPLETED
    WHERE IS_CASH AND STAMP <= UNTIL AND DUE > AS_OF) USING (ACCOUNT)
GROUP BY ACCOUNT
ORDER BY ACCOUNT;
