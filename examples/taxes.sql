-- Works out the tax of each completed trade of a desk's file from the tables, and prints it beside
-- the recorded tax. Run it on a copy of the file, never on the file itself:
--
--     sqlite3 -header -csv copy.db < examples/taxes.sql
--
-- TRADE is the id. GAIN is the realised gain, in cents. RATES is the sum of the customer's rates
-- when the trade was completed, in thousandths of a percent. TAX is the tax by docs/NUMBERS.md, and
-- RECORDED that of the trade (T_TAX), both in cents. The stamp of a row custtax is that of its stored
-- row (KEPT); a row that was sent over HTTP without a key counts from the beginning.
WITH
closings AS (
    -- For each lot that a trade closed or reduced: the shares that it took, below 0 if they were
    -- sold short, times the difference of the prices.
    SELECT HH_T_ID AS trade,
           (HH_BEFORE_QTY - HH_AFTER_QTY) * (closer.T_TRADE_PRICE - opener.T_TRADE_PRICE) AS gain
    FROM HOLDING_HISTORY
    JOIN TRADE AS closer ON closer.T_ID = HH_T_ID
    JOIN TRADE AS opener ON opener.T_ID = HH_H_T_ID
    WHERE HH_BEFORE_QTY <> 0
),
gains AS (SELECT trade, SUM(gain) AS gain FROM closings GROUP BY trade),
taxes_paid AS (
    SELECT CX_C_ID AS customer, TX_RATE AS rate, CAST(COALESCE(K_LINE, '0') AS INTEGER) AS since
    FROM CUSTOMER_TAXRATE
    JOIN TAXRATE ON TX_ID = CX_TX_ID
    LEFT JOIN KEPT ON K_ROW = 'custtax' || char(31) || CX_C_ID || char(31) || CX_TX_ID
),
completed AS (
    SELECT T_ID AS trade, T_TAX AS recorded, CA_TAX_ST AS status, COALESCE(gain, 0) AS gain,
           (SELECT COALESCE(SUM(rate), 0) FROM taxes_paid
            WHERE customer = CA_C_ID AND since < T_DTS) AS rates
    FROM TRADE
    JOIN CUSTOMER_ACCOUNT ON CA_ID = T_CA_ID
    LEFT JOIN gains ON gains.trade = T_ID
    WHERE T_ST_ID = 'CMPT'
)
SELECT trade AS TRADE, gain AS GAIN, rates AS RATES,
       -- The gain in parts of 100000 cents and the rest, so that no product exceeds 64 bits.
       CASE WHEN status = 0 OR gain <= 0 THEN 0
            ELSE gain / 100000 * rates + (gain % 100000 * rates + 50000) / 100000 END AS TAX,
       recorded AS RECORDED
FROM completed
ORDER BY trade;
