-- The pending volume of each broker in each sector: shares times the price that their orders wait for.
SELECT S_SECTOR AS SECTOR, B_ID AS BROKER, B_NAME AS NAME, count(*) AS ORDERS, amount_sum(TR_QTY * TR_BID_PRICE) AS VOLUME
FROM TRADE_REQUEST JOIN BROKER ON B_ID = TR_B_ID JOIN SECURITY ON S_SYMB = TR_S_SYMB
GROUP BY S_SECTOR, B_ID
ORDER BY S_SECTOR, B_ID
