-- The trades on margin of an account that were completed from :first to :last.
SELECT time_text(T_DTS) AS COMPLETED, T_ID AS TRADE, T_TT_ID AS TYPE, T_QTY AS SHARES, T_S_SYMB AS SYMBOL,
    amount_text(T_TRADE_PRICE) AS PRICE, amount_text(SE_AMT) AS SETTLEMENT, day_text(SE_CASH_DUE_DATE) AS DUE
FROM TRADE JOIN SETTLEMENT ON SE_T_ID = T_ID
WHERE T_CA_ID = :account AND NOT T_IS_CASH AND T_DTS >= :first * 86400000 AND T_DTS < (:last + 1) * 86400000
ORDER BY T_DTS
