-- The lines of a holding that `brk explain` has too.
WITH DONE AS (
    SELECT T_ID, T_DTS, T_TRADE_PRICE AS PRICE, CASE WHEN T_TT_ID IN ('TMB', 'TLB') THEN T_QTY ELSE -T_QTY END AS SHARES
    FROM TRADE WHERE T_CA_ID = :account AND T_S_SYMB = :symbol AND T_ST_ID = 'CMPT'
), HELD AS (
    SELECT H_QTY AS SHARES, H_PRICE AS PRICE FROM HOLDING WHERE H_CA_ID = :account AND H_S_SYMB = :symbol)
SELECT 'Shares' AS LABEL, CAST(ifnull(sum(SHARES), 0) AS TEXT) AS VALUE FROM HELD
UNION ALL SELECT 'Cost basis', ifnull(amount_sum(SHARES * PRICE), '0.00') FROM HELD
UNION ALL SELECT 'Worth', ifnull(amount_sum(SHARES * LT_PRICE), '0.00') FROM HELD JOIN LAST_TRADE ON LT_S_SYMB = :symbol
UNION ALL SELECT 'Unrealised gain', ifnull(amount_sum(SHARES * (LT_PRICE - PRICE)), '0.00')
    FROM HELD JOIN LAST_TRADE ON LT_S_SYMB = :symbol
UNION ALL SELECT 'Realised gain', ifnull(amount_sum((HH_BEFORE_QTY - HH_AFTER_QTY) * (PRICE - T_TRADE_PRICE)), '0.00')
    FROM DONE JOIN HOLDING_HISTORY ON HH_T_ID = DONE.T_ID AND HH_BEFORE_QTY <> 0 JOIN TRADE ON TRADE.T_ID = HH_H_T_ID
UNION ALL SELECT 'Last price', amount_text(LT_PRICE) FROM LAST_TRADE WHERE LT_S_SYMB = :symbol
UNION ALL SELECT 'Purchases', ifnull(amount_sum(SHARES * PRICE) FILTER (WHERE SHARES > 0), '0.00') FROM DONE
UNION ALL SELECT 'Sales', ifnull(amount_sum(SHARES * PRICE) FILTER (WHERE SHARES < 0), '0.00') FROM DONE
UNION ALL SELECT 'Trade ' || (row_number() OVER (ORDER BY T_DTS, T_ID) - 1),
    time_text(T_DTS) || ' ' || T_ID || ' ' || SHARES || ' ' || amount_text(PRICE) || ' ' || amount_text(SHARES * PRICE)
    || ' ' || sum(SHARES) OVER (ORDER BY T_DTS, T_ID) FROM DONE
