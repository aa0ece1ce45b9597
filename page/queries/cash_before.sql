-- The cash rows of an account before a stamp: how many, and their sum.
SELECT count(*) AS N, sum(CM_AMT) AS CENTS FROM CASH_MOVE WHERE CM_CA_ID = :account AND CM_DTS < :stamp
