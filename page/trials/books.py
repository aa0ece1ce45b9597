"""The desk of page/trials/try_page: of one customer and of many, with what is rare."""

import csv
import datetime
import time

from cases import TOP

DAY = 86_400_000
# the days of the desk end today
TODAY = int(time.time()) // 86_400
MOMENT = (TODAY - 10) * DAY
# names that are markup, unless they are escaped
SCRIPT = "<script>document.title='taken'</script>"
IMAGE = "<img src=x onerror=\"document.title='taken'\">"
ENTITY = "</table>&lt;b&gt; \"A\" 'B'"
# more brokers than a query of the desk names
OTHERS = [f"Al {n}" for n in range(10, 30)]
ORDER = "cash,fifo,Ann,Lee,T10"
LEE, SCR = ["Ann", "Lee", "T10"], [IMAGE, SCRIPT, "T11"]
WORKED = [
    f"order,100,TMB,ABC,100,,{ORDER}",
    "result,1,10.10",
    f"order,100,TMB,ABC,200,,{ORDER}",
    "result,2,12.00",
    f"order,100,TMS,ABC,150,,{ORDER}",
    "result,3,13.00",
    f"order,100,TMS,ABC,400,,{ORDER}",
    "result,4,13.00",
    f"order,100,TMB,ABC,300,,{ORDER}",
    "result,5,11.00",
    f"order,100,TMS,ABC,50,,{ORDER}",
    "result,6,11.00",
]
# a second customer with hostile names, three tax statuses, deposits, the settlement day
SECOND = [
    ["broker", "2", ENTITY],
    *[["broker", str(n), name] for n, name in enumerate(OTHERS, 3)],
    ["customer", "11", "2", "T11", SCRIPT, IMAGE],
    ["account", "101", "10", "1", "Side", "0", "-50.25"],
    ["account", "110", "11", "2", IMAGE, "2", "1234567.89"],
    ["security", "XYZ", SCRIPT, "NSDQ", "Food & <b>Drink</b>", "25.00"],
    *[["charge", kind, "2", "9.95"] for kind in ("TMB", "TMS", "TLB", "TLS", "TSL")],
    *[
        ["band", "2", kind, place, "1", "9999999", "37"]
        for kind in ("TMB", "TMS", "TLB", "TLS", "TSL")
        for place in ("NYSE", "NSDQ")
    ],
    *[["band", "1", kind, "NSDQ", "1", "5000", "150"] for kind in ("TMB", "TMS", "TLB")],
    ["taxrate", "2", "Town", "1250"],
    ["custtax", "11", "1"],
    ["custtax", "11", "2"],
    ["deposit", "100", "2500.00"],
    ["oneday", (datetime.date(1970, 1, 1) + datetime.timedelta(TODAY - 3)).isoformat()],
    ["withdraw", "110", "34567.89"],
]
LATER = [
    ["order", "110", "TMB", "XYZ", "333", "", "cash", "fifo", *SCR],
    ["result", "7", "24.99"],
    ["order", "110", "TMB", "XYZ", "1000", "", "cash", "fifo", *SCR],
    ["result", "8", "26.01"],
    ["order", "110", "TMS", "XYZ", "777", "", "cash", "lifo", *SCR],
    ["result", "9", "27.77"],
    ["order", "110", "TMS", "XYZ", "700", "", "margin", "fifo", *SCR],
    ["result", "10", "22.22"],
    ["order", "101", "TMS", "ABC", "41", "", "cash", "fifo", *LEE],
    ["result", "11", "10.00"],
    ["order", "101", "TMB", "ABC", "50", "", "cash", "lifo", *LEE],
    ["result", "12", "9.87"],
    ["withdraw", "100", "999.99"],
]
PENDING = [
    ["order", "100", "TMB", "ABC", "250", "", "cash", "fifo", *LEE],
    ["result", "13", "10.31"],
    ["order", "100", "TLS", "ABC", "10", "12.50", "cash", "fifo", *LEE],
    ["order", "100", "TSL", "ABC", "20", "8.00", "margin", "lifo", *LEE],
    ["order", "100", "TLB", "ABC", "30", "7.77", "cash", "fifo", *LEE],
    ["cancel", "16"],
    ["order", "110", "TLB", "XYZ", "40", "20.00", "cash", "fifo", *SCR],
    ["order", "100", "TMB", "XYZ", "5", "", "cash", "fifo", *LEE],
    *[["order", "101", "TLB", "ABC", str(n), "9.50", "cash", "fifo", *LEE] for n in range(1, 26)],
    ["feed", "ABC", "9.40", "1000"],
    *[["result", str(trade), "9.45"] for trade in range(19, 42)],
    *[["order", "101", "TLB", "XYZ", str(n), "24.00", "cash", "fifo", *LEE] for n in range(1, 21)],
    ["feed", "XYZ", "23.00", "1000"],
]
# the trades that one tick submitted at one stamp
AT_ONE_STAMP = range(44, 64)
CANCELED, LAST_TRADE = 16, 63


def volumes():
    """Twenty accounts, each with a broker of its own and a pending order."""
    brokers = range(3, 23)
    rows = [["customer", str(n), "1", f"T{n}", "Vol", "Vi"] for n in (12, 13)]
    rows += [["account", str(300 + n), str(12 + n % 2), str(n), "Volume", "0", "1000.00"] for n in brokers]
    return rows + [["order", str(300 + n), "TLB", "ABC", "10", "4.50", "cash", "fifo", "Vi", "Vol", f"T{12 + n % 2}"] for n in brokers]


def set_up(desk):
    """Books the setting of examples/, the worked trades, and what the cases need."""
    with open(TOP / "examples" / "setting.csv", newline="", encoding="utf-8") as file:
        setting = list(csv.reader(file))
    desk.batch(setting[0][1], setting[1:-1], MOMENT)
    desk.batch("T", WORKED, MOMENT)
    desk.batch("SECOND", SECOND, MOMENT + 3 * DAY)
    desk.batch("LATER", LATER, MOMENT + 6 * DAY)
    desk.batch("PENDING", PENDING, MOMENT + 9 * DAY)
    desk.batch("VOLUME", volumes(), MOMENT + 9 * DAY + 1000)
