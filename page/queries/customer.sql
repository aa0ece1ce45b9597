-- A customer.
SELECT * FROM CUSTOMER WHERE C_ID = :customer
