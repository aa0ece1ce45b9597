-- What a text names: an id, a symbol, a tax id, a name or a batch, the closest first.
SELECT RANK, KIND, KEY, NAME, MORE FROM (
    SELECT 1 AS RANK, 'trade' AS KIND, T_ID AS KEY, T_TT_ID || ' ' || T_QTY || ' ' || T_S_SYMB AS NAME,
        'account ' || T_CA_ID AS MORE FROM TRADE WHERE T_ID = :number
    UNION ALL
    SELECT 0, 'account', CA_ID, CA_NAME, C_L_NAME || ', ' || C_F_NAME FROM CUSTOMER_ACCOUNT
    JOIN CUSTOMER ON C_ID = CA_C_ID WHERE CA_ID = :number
    UNION ALL
    SELECT 0, 'customer', C_ID, C_L_NAME || ', ' || C_F_NAME, 'tax id ' || C_TAX_ID FROM CUSTOMER
    WHERE C_ID = :number OR lower(C_TAX_ID) = lower(:text)
    UNION ALL
    SELECT 2, 'broker', B_ID, B_NAME, '' FROM BROKER WHERE B_ID = :number
    UNION ALL
    SELECT 0, 'security', S_SYMB, S_NAME, S_EX_ID FROM SECURITY WHERE S_SYMB = upper(:text)
    UNION ALL
    SELECT 3, 'security', S_SYMB, S_NAME, S_EX_ID FROM SECURITY
    WHERE S_SYMB <> upper(:text) AND has_words(:text, S_SYMB, S_NAME)
    UNION ALL
    SELECT 4, 'customer', C_ID, C_L_NAME || ', ' || C_F_NAME, 'tax id ' || C_TAX_ID FROM CUSTOMER
    WHERE lower(C_TAX_ID) <> lower(:text) AND has_words(:text, C_L_NAME, C_F_NAME, C_TAX_ID)
    UNION ALL
    SELECT 5, 'account', CA_ID, CA_NAME, C_L_NAME || ', ' || C_F_NAME FROM CUSTOMER_ACCOUNT
    JOIN CUSTOMER ON C_ID = CA_C_ID WHERE has_words(:text, CA_NAME, C_L_NAME, C_F_NAME, C_TAX_ID)
    UNION ALL
    SELECT 5, 'account', AP_CA_ID, AP_L_NAME || ', ' || AP_F_NAME, 'may order: tax id ' || AP_TAX_ID
    FROM ACCOUNT_PERMISSION WHERE has_words(:text, AP_L_NAME, AP_F_NAME, AP_TAX_ID)
    UNION ALL
    SELECT 6, 'broker', B_ID, B_NAME, '' FROM BROKER WHERE has_words(:text, B_NAME)
    UNION ALL
    SELECT 7, 'batch', K_BATCH, K_BATCH, count(*) || ' rows' FROM KEPT
    WHERE has_words(:text, K_BATCH) GROUP BY K_BATCH)
ORDER BY RANK, KIND, KEY
LIMIT 201
