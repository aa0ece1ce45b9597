-- Who may order for an account: its customer, and those whom a permission names.
SELECT C_F_NAME AS FIRST, C_L_NAME AS LAST, C_TAX_ID AS TAX_ID, 'customer' AS WHY
FROM CUSTOMER_ACCOUNT JOIN CUSTOMER ON C_ID = CA_C_ID WHERE CA_ID = :account
UNION ALL
SELECT AP_F_NAME, AP_L_NAME, AP_TAX_ID, 'permission ' || AP_ACL FROM ACCOUNT_PERMISSION WHERE AP_CA_ID = :account
