-- The orders, the latest status first. A charge that was never made has no amount, but a note.
SELECT T_ID AS TRADE, T_ST_ID AS STATUS,
    CASE T_ST_ID WHEN 'SBMT' THEN 'result' WHEN 'PNDG' THEN 'cancel' ELSE '' END AS ACTION, time_text(T_DTS) AS SINCE, T_CA_ID AS ACCOUNT, T_TT_ID AS TYPE,
    T_S_SYMB AS SYMBOL, T_QTY AS SHARES, amount_text(T_BID_PRICE) AS ASKED, amount_text(T_TRADE_PRICE) AS PRICE,
    amount_text(SE_AMT) AS SETTLEMENT, CASE T_ST_ID WHEN 'CMPT' THEN amount_text(T_CHRG) END AS CHARGE,
    CASE T_ST_ID WHEN 'CMPT' THEN amount_text(T_COMM) END AS COMMISSION, amount_text(T_TAX) AS TAX,
    CASE T_ST_ID WHEN 'CMPT' THEN '' WHEN 'CNCL' THEN 'never charged: ' ELSE 'if completed: ' END
        || CASE T_ST_ID WHEN 'CMPT' THEN '' ELSE amount_text(T_CHRG) || ' and about ' || amount_text(T_COMM) END AS NOTE,
    CASE T_IS_CASH WHEN 1 THEN 'cash' ELSE 'margin' END AS SETTLES_BY, T_EXEC_NAME AS EXECUTOR
FROM TRADE LEFT JOIN SETTLEMENT ON SE_T_ID = T_ID
WHERE (:account IS NULL OR T_CA_ID = :account) AND (:symbol IS NULL OR T_S_SYMB = :symbol)
    AND (:status IS NULL OR T_ST_ID = :status)
    AND T_DTS >= :first * 86400000 AND T_DTS < (:last + 1) * 86400000
ORDER BY T_DTS DESC, T_ID DESC
