-- The accounts with a balance below zero, the lowest first.
SELECT CA_ID AS ACCOUNT, CA_NAME AS NAME, C_L_NAME || ', ' || C_F_NAME AS HOLDER, amount_text(CA_BAL) AS BALANCE
FROM CUSTOMER_ACCOUNT JOIN CUSTOMER ON C_ID = CA_C_ID
WHERE CA_BAL < 0
ORDER BY CA_BAL, CA_ID
