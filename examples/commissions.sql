-- Works out the commission and the charge of each trade of a desk's file from the bands and the charges,
-- and prints them beside the recorded ones. Run it on a copy of the file, never on the file itself:
--
--     sqlite3 -header -csv copy.db < examples/commissions.sql
--
-- TRADE is the id and STATUS its status. VALUE is the quantity times the price of the completion, or
-- times the requested price while the trade is not completed, in cents. RATE is that of the
-- band of the customer's tier, the type, the exchange and the quantity, in hundredths of a percent.
-- COMMISSION is by docs/NUMBERS.md, and RECORDED that of the trade (T_COMM); CHARGE is that of the type
-- and the tier, and CHARGED that of the trade (T_CHRG); all in cents. Bands, charges and tiers never
-- change, and bands do not overlap: so a pair that differs, or an empty field, means that another
-- program changed the file. No product exceeds 64 bits.
SELECT T_ID AS TRADE, T_ST_ID AS STATUS, T_QTY * COALESCE(T_TRADE_PRICE, T_BID_PRICE) AS VALUE,
       CR_RATE AS RATE,
       (CR_RATE * T_QTY * COALESCE(T_TRADE_PRICE, T_BID_PRICE) + 5000) / 10000 AS COMMISSION,
       T_COMM AS RECORDED, CH_CHRG AS CHARGE, T_CHRG AS CHARGED
FROM TRADE
JOIN CUSTOMER_ACCOUNT ON CA_ID = T_CA_ID
JOIN CUSTOMER ON C_ID = CA_C_ID
JOIN SECURITY ON S_SYMB = T_S_SYMB
LEFT JOIN COMMISSION_RATE
    ON CR_C_TIER = C_TIER AND CR_TT_ID = T_TT_ID AND CR_EX_ID = S_EX_ID
    AND T_QTY BETWEEN CR_FROM_QTY AND CR_TO_QTY
LEFT JOIN CHARGE ON CH_TT_ID = T_TT_ID AND CH_C_TIER = C_TIER
ORDER BY T_ID;
