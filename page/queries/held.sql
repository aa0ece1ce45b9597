-- The shares that an account holds of a security.
SELECT ifnull(sum(HS_QTY), 0) AS SHARES FROM HOLDING_SUMMARY WHERE HS_CA_ID = :account AND HS_S_SYMB = :symbol
