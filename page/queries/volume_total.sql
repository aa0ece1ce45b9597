-- The pending volume of all brokers.
SELECT ifnull(amount_sum(TR_QTY * TR_BID_PRICE), '0.00') AS VOLUME, count(*) AS ORDERS FROM TRADE_REQUEST
