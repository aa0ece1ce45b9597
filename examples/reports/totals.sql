-- Control totals of the whole desk, each beside the same total from other tables.
-- Options:
WITH
DONE AS MATERIALIZED (
    SELECT SHARES, VALUE, CHARGE, COMMISSION, TAX, WITHHELD, IS_CASH, SETTLEMENT FROM COMPLETED
),
HELD AS MATERIALIZED (SELECT LOTS, COST, WORTH FROM POSITION),
COUNTS (PLACE, TOTAL, N, OTHER, M) AS (
    SELECT 1, 'number of trades', (SELECT count(*) FROM TRADE), 'the last trade', (SELECT ifnull(max(T_ID), 0) FROM TRADE)
    UNION ALL
    SELECT 2, 'number of pending trades', (SELECT count(*) FROM TRADE WHERE T_ST_ID = 'PNDG'), 'requests',
        (SELECT count(*) FROM TRADE_REQUEST)
    UNION ALL
    SELECT 3, 'number of completed trades', (SELECT count(*) FROM TRADE WHERE T_ST_ID = 'CMPT'), 'trades of the brokers',
        (SELECT ifnull(sum(B_NUM_TRADES), 0) FROM BROKER)
    UNION ALL
    SELECT 4, 'number of settlements', (SELECT count(*) FROM SETTLEMENT), 'statuses completed',
        (SELECT count(*) FROM TRADE_HISTORY WHERE TH_ST_ID = 'CMPT')
    UNION ALL
    SELECT 5, 'number of cash rows', (SELECT count(*) FROM CASH_MOVE), 'the last cash row',
        (SELECT ifnull(max(CM_ID), 0) FROM CASH_MOVE)
    UNION ALL
    SELECT 6, 'number of lots', (SELECT count(*) FROM HOLDING), 'lots by their changes', (SELECT ifnull(sum(LOTS), 0) FROM HELD)
    UNION ALL
    SELECT 7, 'shares held', (SELECT ifnull(sum(HS_QTY), 0) FROM HOLDING_SUMMARY), 'shares bought less sold',
        (SELECT ifnull(sum(SHARES), 0) FROM DONE)
    UNION ALL
    SELECT 8, 'shares of lots', (SELECT ifnull(sum(H_QTY), 0) FROM HOLDING), 'shares bought less sold',
        (SELECT ifnull(sum(SHARES), 0) FROM DONE)
),
-- a part of the amount (SIDE 1) or of the other amount (SIDE 2) of a total
PARTS (PLACE, SIDE, CENTS) AS (
    SELECT 10, 1, CA_OPEN FROM CUSTOMER_ACCOUNT
    UNION ALL
    SELECT 11, 1, CM_AMT FROM CASH_MOVE WHERE CM_T_ID IS NULL AND CM_AMT > 0
    UNION ALL
    SELECT 12, 1, CM_AMT FROM CASH_MOVE WHERE CM_T_ID IS NULL AND CM_AMT < 0
    UNION ALL
    SELECT 13, 1, CM_AMT FROM CASH_MOVE WHERE CM_T_ID IS NOT NULL
    UNION ALL
    SELECT 13, 2, SETTLEMENT FROM DONE WHERE IS_CASH
    UNION ALL
    SELECT 14, 1, CA_BAL FROM CUSTOMER_ACCOUNT
    UNION ALL
    SELECT 14, 2, CA_OPEN FROM CUSTOMER_ACCOUNT
    UNION ALL
    SELECT 14, 2, CM_AMT FROM CASH_MOVE
    UNION ALL
    SELECT 15, 1, SE_AMT FROM SETTLEMENT
    UNION ALL
    SELECT 15, 2, VALUE - CHARGE - COMMISSION - WITHHELD FROM DONE
    UNION ALL
    SELECT 16, 1, SETTLEMENT FROM DONE WHERE NOT IS_CASH
    UNION ALL
    SELECT 17, 1, VALUE FROM DONE WHERE VALUE < 0
    UNION ALL
    SELECT 18, 1, VALUE FROM DONE WHERE VALUE > 0
    UNION ALL
    SELECT 19, 1, CHARGE FROM DONE
    UNION ALL
    SELECT 20, 1, B_COMM_TOTAL FROM BROKER
    UNION ALL
    SELECT 20, 2, COMMISSION FROM DONE
    UNION ALL
    SELECT 21, 1, TAX FROM DONE
    UNION ALL
    SELECT 22, 1, WITHHELD FROM DONE
    UNION ALL
    SELECT 23, 1, GAIN FROM GAIN
    UNION ALL
    SELECT 23, 2, VALUE FROM DONE
    UNION ALL
    SELECT 23, 2, H_QTY * H_PRICE FROM HOLDING
    UNION ALL
    SELECT 24, 1, H_QTY * H_PRICE FROM HOLDING
    UNION ALL
    SELECT 24, 2, COST FROM HELD
    UNION ALL
    SELECT 25, 1, HS_QTY * LT_PRICE FROM HOLDING_SUMMARY JOIN LAST_TRADE ON LT_S_SYMB = HS_S_SYMB
    UNION ALL
    SELECT 25, 2, WORTH FROM HELD
),
AMOUNTS (PLACE, TOTAL, OTHER) AS (
    VALUES (10, 'openings', NULL), (11, 'deposits', NULL), (12, 'withdrawals', NULL),
        (13, 'cash of trades', 'settlements of cash trades'), (14, 'balances', 'openings and cash rows'),
        (15, 'settlements', 'values less charges, commissions and taxes withheld'),
        (16, 'settlements on margin', NULL), (17, 'values of purchases', NULL), (18, 'values of sales', NULL),
        (19, 'charges', NULL), (20, 'commissions of the brokers', 'commissions of the trades'),
        (21, 'taxes', NULL), (22, 'taxes withheld', NULL),
        (23, 'realised gains', 'values of trades and cost of lots'),
        (24, 'cost of lots', 'cost by their changes'), (25, 'holdings', 'holdings by their changes')
)
SELECT TOTAL, VALUE, OTHER, OTHER_VALUE, DIFFERENCE
FROM (
    SELECT PLACE, TOTAL, CAST(N AS TEXT) AS VALUE, OTHER, CAST(M AS TEXT) AS OTHER_VALUE,
        CAST(N - M AS TEXT) AS DIFFERENCE
    FROM COUNTS
    UNION ALL
    SELECT PLACE, TOTAL, ifnull(amount_sum(CENTS) FILTER (WHERE SIDE = 1), '0.00'), OTHER,
        CASE WHEN OTHER IS NOT NULL THEN ifnull(amount_sum(CENTS) FILTER (WHERE SIDE = 2), '0.00') END,
        CASE WHEN OTHER IS NOT NULL
            THEN ifnull(amount_sum(CASE SIDE WHEN 1 THEN CENTS ELSE -CENTS END)
                        FILTER (WHERE SIDE IS NOT NULL), '0.00') END
    FROM AMOUNTS LEFT JOIN PARTS USING (PLACE)
    GROUP BY PLACE
)
ORDER BY PLACE;
