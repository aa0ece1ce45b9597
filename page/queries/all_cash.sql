-- The cash of all accounts together, and how many there are.
SELECT count(*) AS ACCOUNTS, sum_text(sum(CA_BAL / 1000000), sum(CA_BAL % 1000000)) AS BALANCE
FROM CUSTOMER_ACCOUNT
