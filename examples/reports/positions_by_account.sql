-- What each account holds of each security at the end of a day.
-- Options: --day --account --customer --broker --symbol
SELECT ACCOUNT, CUSTOMER, BROKER, SYMBOL, S_NAME AS NAME, LOTS, SHARES, amount_text(COST) AS COST,
    amount_text(LAST_PRICE) AS LAST_PRICE, amount_text(WORTH) AS WORTH,
    amount_text(WORTH - COST) AS UNREALISED
FROM POSITION JOIN SECURITY ON S_SYMB = SYMBOL
ORDER BY ACCOUNT, SYMBOL;
