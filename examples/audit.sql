-- Prints each row of a desk's tables that breaks a condition, by SQL alone.
--
--     cp desk.db copy.db
--     sqlite3 copy.db < examples/audit.sql
--
-- Copy the file while no run of brk is under way, with its log if the last run was killed. It
-- prints `ok`, with exit status 0, or a line for each row, with exit status 1:
--
--     CONDITION|TABLE|has|ROW      the row is in the table, and the condition does not allow it
--     CONDITION|TABLE|lacks|ROW    the condition demands the row, and the table does not have it
--     CONDITION|TABLE|breaks|ROW   the row breaks a rule, which follows it
--
-- CONDITION is a word of `brk audit` (docs/OPERATING.md, "The audit"): status, requests, lots,
-- history, summary, count, commission, settlement, cash or balance. Or it is `reference`: a row
-- names a row that does not exist, for which `brk audit` prints `brk: fault: store`. `brk audit`
-- prints the first condition that fails, and this script all rows of all of them. A row that breaks
-- one condition often makes others fail.
--
-- It changes nothing: its own tables are temporary. It needs the command sqlite3, 3.37 or later, and
-- a file of schema 3.
--
-- What SQL does not say here:
-- - `schema` and `form`. The names of columns and the forms and limits of values are presumed. If
--   `brk audit` prints one of these two words, this script may print `ok`, or an error of sqlite3 if
--   a table is missing.
-- - A replay of the deals. `lots` compares HOLDING with the last change of each lot, and `history`
--   tests each change against the changes before it. If both hold, HOLDING and HOLDING_HISTORY have
--   what a replay leaves. If one of them fails, `brk audit` may name the other.
-- - Speed. `history` compares each change with the lots of its position that were open then: with
--   10,000 trades in one position it took 15 s, with 100 in each of 100 positions 0.5 s.

.bail on
.mode list
.separator |

PRAGMA temp_store = MEMORY;

CREATE TEMP TABLE BROKEN (CONDITION TEXT, TAB TEXT, VERB TEXT, ROW TEXT);

-- reference: each row that a row names exists.
INSERT INTO BROKEN
SELECT 'reference', "table", 'breaks',
    'rowid ' || rowid || ': it names a row of ' || parent || ' that does not exist'
FROM pragma_foreign_key_check;

-- The stamps of each trade's statuses.
CREATE TEMP TABLE WAY AS
SELECT T_ID, T_ST_ID, T_DTS,
    max(CASE TH_ST_ID WHEN 'PNDG' THEN TH_DTS END) AS PNDG,
    max(CASE TH_ST_ID WHEN 'SBMT' THEN TH_DTS END) AS SBMT,
    max(CASE TH_ST_ID WHEN 'CMPT' THEN TH_DTS END) AS CMPT,
    max(CASE TH_ST_ID WHEN 'CNCL' THEN TH_DTS END) AS CNCL
FROM TRADE LEFT JOIN TRADE_HISTORY ON TH_T_ID = T_ID
GROUP BY T_ID;

-- The completed trades, by their histories: stamp, signed quantity, value that is received, broker.
CREATE TEMP TABLE DONE AS
SELECT T_ID, CMPT AS STAMP, T_CA_ID AS CA, T_S_SYMB AS SYMBOL, T_TRADE_PRICE AS PRICE,
    CASE WHEN T_TT_ID IN ('TMB', 'TLB') THEN T_QTY ELSE -T_QTY END AS QTY,
    T_LIFO AS LIFO, T_IS_CASH AS IS_CASH, T_COMM AS COMM, CA_B_ID AS BROKER,
    CASE WHEN T_TT_ID IN ('TMB', 'TLB') THEN -T_QTY ELSE T_QTY END * T_TRADE_PRICE
        - T_CHRG - T_COMM - CASE CA_TAX_ST WHEN 1 THEN T_TAX ELSE 0 END AS AMOUNT
FROM WAY JOIN TRADE USING (T_ID) JOIN CUSTOMER_ACCOUNT ON CA_ID = T_CA_ID
WHERE CMPT IS NOT NULL;
CREATE UNIQUE INDEX temp.DONE_ID ON DONE (T_ID);

-- status: the statuses of a trade are PNDG, PNDG CNCL, SBMT, SBMT CMPT, PNDG SBMT or
-- PNDG SBMT CMPT, with rising stamps, and its row has the last one.
INSERT INTO BROKEN
SELECT 'status', 'TRADE', 'breaks',
    T_ID || ',' || T_ST_ID || ',' || T_DTS || ': PNDG ' || ifnull(PNDG, 'none') || ', SBMT '
        || ifnull(SBMT, 'none') || ', CMPT ' || ifnull(CMPT, 'none') || ', CNCL '
        || ifnull(CNCL, 'none')
FROM WAY
WHERE CASE
        WHEN CNCL IS NOT NULL
            THEN ifnull(PNDG < CNCL, 0) AND SBMT IS NULL AND CMPT IS NULL
                AND T_ST_ID = 'CNCL' AND T_DTS = CNCL
        WHEN CMPT IS NOT NULL
            THEN ifnull(SBMT < CMPT, 0) AND ifnull(PNDG < SBMT, 1)
                AND T_ST_ID = 'CMPT' AND T_DTS = CMPT
        WHEN SBMT IS NOT NULL
            THEN ifnull(PNDG < SBMT, 1) AND T_ST_ID = 'SBMT' AND T_DTS = SBMT
        ELSE PNDG IS NOT NULL AND T_ST_ID = 'PNDG' AND T_DTS = PNDG
    END = 0;

-- status: no two completions or movements have the same stamp.
INSERT INTO BROKEN
SELECT 'status', TAB, 'breaks', ID || ',' || STAMP || ': its stamp is that of another row'
FROM (
    SELECT *, count(*) OVER (PARTITION BY STAMP) AS ROWS_OF_STAMP
    FROM (SELECT 'TRADE_HISTORY' AS TAB, T_ID AS ID, STAMP FROM DONE
          UNION ALL SELECT 'CASH_MOVE', CM_ID, CM_DTS FROM CASH_MOVE WHERE CM_T_ID IS NULL)
)
WHERE ROWS_OF_STAMP > 1;

-- requests: TRADE_REQUEST has the pending trades.
CREATE TEMP TABLE WANTED_REQUEST AS
SELECT T_ID AS TR_T_ID, T_TT_ID AS TR_TT_ID, T_S_SYMB AS TR_S_SYMB, T_QTY AS TR_QTY,
    T_BID_PRICE AS TR_BID_PRICE, CA_B_ID AS TR_B_ID
FROM WAY JOIN TRADE USING (T_ID) JOIN CUSTOMER_ACCOUNT ON CA_ID = T_CA_ID
WHERE PNDG IS NOT NULL AND SBMT IS NULL AND CMPT IS NULL AND CNCL IS NULL;

INSERT INTO BROKEN
SELECT 'requests', 'TRADE_REQUEST', VERB, TR_T_ID || ',' || TR_TT_ID || ',' || TR_S_SYMB || ','
    || TR_QTY || ',' || TR_BID_PRICE || ',' || TR_B_ID
FROM (
    SELECT 'has' AS VERB, * FROM (SELECT * FROM TRADE_REQUEST EXCEPT SELECT * FROM WANTED_REQUEST)
    UNION ALL
    SELECT 'lacks', * FROM (SELECT * FROM WANTED_REQUEST EXCEPT SELECT * FROM TRADE_REQUEST)
);

-- The changes of lots: account, symbol and stamp of the lot and of the trade that changed it, and
-- the stamp of the lot's next change.
CREATE TEMP TABLE CHANGE AS
SELECT HH_H_T_ID AS LOT, HH_T_ID AS TRADE, HH_BEFORE_QTY AS BEFORE, HH_AFTER_QTY AS AFTER,
    L.CA AS CA, L.SYMBOL AS SYMBOL, L.STAMP AS OPENED, L.PRICE AS PRICE,
    D.CA = L.CA AND D.SYMBOL = L.SYMBOL AS IS_OF_POSITION, D.STAMP AS STAMP, D.QTY AS QTY,
    D.LIFO AS LIFO,
    lag(HH_AFTER_QTY, 1, 0) OVER LOT_CHANGES AS LEFT_BEFORE,
    lag(HH_T_ID) OVER LOT_CHANGES IS NULL AS IS_FIRST,
    lead(D.STAMP) OVER LOT_CHANGES AS NEXT_STAMP
FROM HOLDING_HISTORY LEFT JOIN DONE AS L ON L.T_ID = HH_H_T_ID
    LEFT JOIN DONE AS D ON D.T_ID = HH_T_ID
WINDOW LOT_CHANGES AS (PARTITION BY HH_H_T_ID ORDER BY D.STAMP);
CREATE INDEX temp.CHANGE_POSITION ON CHANGE (CA, SYMBOL, STAMP);

-- lots: HOLDING has each lot whose last change leaves shares.
CREATE TEMP TABLE WANTED_LOT AS
SELECT LOT AS H_T_ID, CA AS H_CA_ID, SYMBOL AS H_S_SYMB, OPENED AS H_DTS, PRICE AS H_PRICE,
    AFTER AS H_QTY
FROM CHANGE
WHERE NEXT_STAMP IS NULL AND AFTER <> 0;

INSERT INTO BROKEN
SELECT 'lots', 'HOLDING', VERB, H_T_ID || ',' || ifnull(H_CA_ID, 'none') || ','
    || ifnull(H_S_SYMB, 'none') || ',' || ifnull(H_DTS, 'none') || ',' || ifnull(H_PRICE, 'none')
    || ',' || H_QTY
FROM (
    SELECT 'has' AS VERB, * FROM (SELECT * FROM HOLDING EXCEPT SELECT * FROM WANTED_LOT)
    UNION ALL
    SELECT 'lacks', * FROM (SELECT * FROM WANTED_LOT EXCEPT SELECT * FROM HOLDING)
);

-- history: each change is one that its trade may do to its lot.
INSERT INTO BROKEN
SELECT 'history', 'HOLDING_HISTORY', 'breaks',
    LOT || ',' || TRADE || ',' || BEFORE || ',' || AFTER || ': ' || RULE
FROM (
    SELECT *, CASE
        WHEN IS_OF_POSITION IS NOT 1 THEN 'both trades are completed, of one account and symbol'
        WHEN BEFORE <> LEFT_BEFORE THEN 'a lot has the shares that its change before left'
        WHEN (LOT = TRADE) <> IS_FIRST THEN 'the first change of a lot is of the trade that opens it'
        WHEN LOT = TRADE AND (AFTER = 0 OR (AFTER > 0) <> (QTY > 0))
            THEN 'a purchase opens a lot above 0, and a sale one below 0'
        WHEN LOT <> TRADE AND (BEFORE > 0) = (QTY > 0)
            THEN 'a purchase closes shares sold short, and a sale shares that were bought'
        WHEN LOT <> TRADE AND (BEFORE * AFTER < 0 OR abs(AFTER) >= abs(BEFORE))
            THEN 'a closed lot loses shares, and at most all'
        END AS RULE
    FROM CHANGE
)
WHERE RULE IS NOT NULL;

-- history: the changes of a completed trade sum to its quantity.
INSERT INTO BROKEN
SELECT 'history', 'TRADE', 'breaks',
    T_ID || ': its changes of lots sum to ' || CHANGED || ', and not to ' || QTY
FROM (
    SELECT T_ID, DONE.QTY AS QTY, ifnull(sum(AFTER - BEFORE), 0) AS CHANGED
    FROM DONE LEFT JOIN CHANGE ON TRADE = T_ID
    GROUP BY T_ID
)
WHERE CHANGED <> QTY;

-- history: a trade closes the oldest lots first, or the youngest ones for T_LIFO, each wholly before
-- the next, and opens a lot only if none of the other side is left.
INSERT INTO BROKEN
SELECT DISTINCT 'history', 'HOLDING_HISTORY', 'breaks',
    C.LOT || ',' || C.TRADE || ',' || C.BEFORE || ',' || C.AFTER || ': lot ' || O.LOT
        || ' is closed first'
FROM CHANGE AS C JOIN CHANGE AS O
    ON O.CA = C.CA AND O.SYMBOL = C.SYMBOL AND O.LOT <> C.LOT
        AND O.STAMP <= C.STAMP AND (O.NEXT_STAMP IS NULL OR O.NEXT_STAMP > C.STAMP)
WHERE O.AFTER <> 0
    AND CASE
        WHEN C.LOT = C.TRADE THEN (O.AFTER > 0) <> (C.QTY > 0)
        WHEN C.LIFO THEN O.OPENED > C.OPENED AND O.LOT <> C.TRADE
        ELSE O.OPENED < C.OPENED
    END;

-- summary: HOLDING_SUMMARY has the shares bought less those sold, which the lots have as well.
CREATE TEMP TABLE WANTED_SUMMARY AS
SELECT CA AS HS_CA_ID, SYMBOL AS HS_S_SYMB, sum(QTY) AS HS_QTY
FROM DONE
GROUP BY CA, SYMBOL
HAVING sum(QTY) <> 0;

INSERT INTO BROKEN
SELECT 'summary', 'HOLDING_SUMMARY', VERB, HS_CA_ID || ',' || HS_S_SYMB || ',' || HS_QTY
FROM (
    SELECT 'has' AS VERB, *
    FROM (SELECT * FROM HOLDING_SUMMARY EXCEPT SELECT * FROM WANTED_SUMMARY)
    UNION ALL
    SELECT 'lacks', * FROM (SELECT * FROM WANTED_SUMMARY EXCEPT SELECT * FROM HOLDING_SUMMARY)
);

-- count and commission: each broker has the number and the commissions of the completed trades.
CREATE TEMP TABLE WANTED_BROKER AS
SELECT B_ID, count(T_ID) AS N, ifnull(sum(COMM), 0) AS COMM
FROM BROKER LEFT JOIN DONE ON BROKER = B_ID
GROUP BY B_ID;

INSERT INTO BROKEN
SELECT 'count', 'BROKER', VERB, B_ID || ',' || N
FROM (
    SELECT 'has' AS VERB, * FROM (SELECT B_ID, B_NUM_TRADES AS N FROM BROKER
                                  EXCEPT SELECT B_ID, N FROM WANTED_BROKER)
    UNION ALL
    SELECT 'lacks', * FROM (SELECT B_ID, N FROM WANTED_BROKER
                            EXCEPT SELECT B_ID, B_NUM_TRADES FROM BROKER)
);

INSERT INTO BROKEN
SELECT 'commission', 'BROKER', VERB, B_ID || ',' || COMM
FROM (
    SELECT 'has' AS VERB, * FROM (SELECT B_ID, B_COMM_TOTAL AS COMM FROM BROKER
                                  EXCEPT SELECT B_ID, COMM FROM WANTED_BROKER)
    UNION ALL
    SELECT 'lacks', * FROM (SELECT B_ID, COMM FROM WANTED_BROKER
                            EXCEPT SELECT B_ID, B_COMM_TOTAL FROM BROKER)
);

-- settlement: each completed trade has its due day, two days after that of its completion or one
-- from SR_DAY on, and its amount.
CREATE TEMP TABLE WANTED_SETTLEMENT AS
SELECT T_ID AS SE_T_ID,
    STAMP / 86400000 + CASE WHEN SR_DAY <= STAMP / 86400000 THEN 1 ELSE 2 END AS SE_CASH_DUE_DATE,
    AMOUNT AS SE_AMT
FROM DONE LEFT JOIN SETTLE_RULE;

INSERT INTO BROKEN
SELECT 'settlement', 'SETTLEMENT', VERB, SE_T_ID || ',' || SE_CASH_DUE_DATE || ',' || SE_AMT
FROM (
    SELECT 'has' AS VERB, * FROM (SELECT SE_T_ID, SE_CASH_DUE_DATE, SE_AMT FROM SETTLEMENT
                                  EXCEPT SELECT * FROM WANTED_SETTLEMENT)
    UNION ALL
    SELECT 'lacks', * FROM (SELECT * FROM WANTED_SETTLEMENT
                            EXCEPT SELECT SE_T_ID, SE_CASH_DUE_DATE, SE_AMT FROM SETTLEMENT)
);

-- cash: CASH_MOVE has a row for each completed cash trade and each movement, numbered by stamp.
CREATE TEMP TABLE WANTED_MOVE AS
SELECT row_number() OVER (ORDER BY CM_DTS) AS CM_ID, *
FROM (SELECT CA AS CM_CA_ID, T_ID AS CM_T_ID, STAMP AS CM_DTS, AMOUNT AS CM_AMT
      FROM DONE WHERE IS_CASH
      UNION ALL SELECT CM_CA_ID, NULL, CM_DTS, CM_AMT FROM CASH_MOVE WHERE CM_T_ID IS NULL);

INSERT INTO BROKEN
SELECT 'cash', 'CASH_MOVE', VERB, CM_ID || ',' || CM_CA_ID || ',' || ifnull(CM_T_ID, 'null') || ','
    || CM_DTS || ',' || CM_AMT
FROM (
    SELECT 'has' AS VERB, * FROM (SELECT CM_ID, CM_CA_ID, CM_T_ID, CM_DTS, CM_AMT FROM CASH_MOVE
                                  EXCEPT SELECT * FROM WANTED_MOVE)
    UNION ALL
    SELECT 'lacks', * FROM (SELECT * FROM WANTED_MOVE
                            EXCEPT SELECT CM_ID, CM_CA_ID, CM_T_ID, CM_DTS, CM_AMT FROM CASH_MOVE)
);

-- cash: CASH_TRANSACTION is empty.
INSERT INTO BROKEN
SELECT 'cash', 'CASH_TRANSACTION', 'has', CT_T_ID || ',' || CT_DTS || ',' || CT_AMT
FROM CASH_TRANSACTION;

-- balance: each balance is the opening and the amounts of the account's cash rows.
INSERT INTO BROKEN
SELECT 'balance', 'CUSTOMER_ACCOUNT', 'breaks',
    CA_ID || ',' || CA_BAL || ': the opening and the cash rows are ' || WANTED
FROM (
    SELECT CA_ID, CA_BAL, CA_OPEN + ifnull(sum(CM_AMT), 0) AS WANTED
    FROM CUSTOMER_ACCOUNT LEFT JOIN CASH_MOVE ON CM_CA_ID = CA_ID
    GROUP BY CA_ID
)
WHERE CA_BAL <> WANTED;

SELECT * FROM BROKEN;
SELECT 'ok' WHERE NOT EXISTS (SELECT * FROM BROKEN);

-- This statement fails if a row was printed, so that sqlite3 ends with exit status 1.
CREATE TEMP TABLE VERDICT (BROKEN_ROWS CONSTRAINT "no row breaks a condition" CHECK (BROKEN_ROWS = 0));
INSERT INTO VERDICT SELECT count(*) FROM BROKEN;
