#!/usr/bin/env python3
"""Makes a portfolio of many loans, some 100 rows each, and a script of rates for them: the same for each number.

    make.py COUNT FOLDER

Written are FOLDER/all.json, a list of COUNT loans of four kinds (PAM, LAM, NAM, ANN) in three currencies, every fifth
with a rate that is reset once a year, and FOLDER/all.txt, rates of each year and an ask for all.
"""

import pathlib
import sys

KINDS = ("PAM", "ANN", "LAM", "NAM")
CURRENCIES = ("EUR", "USD", "CHF")


def loan(number: int) -> str:
    """A loan, in the words of a portfolio file."""
    kind, years = KINDS[number % 4], (8, 12, 12, 12)[number % 4]
    month, first = number // 4 % 12 + 1, 2015 + number // 48 % 10
    cycle = "P1ML1" if kind == "PAM" else "P3ML1"
    more = "" if kind == "PAM" else ',"cycleOfPrincipalRedemption":"P3ML1"'
    if kind == "NAM":
        more += f',"nextPrincipalRedemptionPayment":{300 + number % 700}'
    if number % 5 == 0:
        more += f',"cycleOfRateReset":"P1YL1","marketObjectCodeOfRateReset":"RATE{number % 3}","rateSpread":0.01'
    return (f'{{"contractID":"LOAN-{number:07d}","contractType":"{kind}","contractRole":"RPA","statusDate":"{first}-01-01",'
            f'"currency":"{CURRENCIES[number % 3]}","initialExchangeDate":"{first}-{month:02d}-15",'
            f'"maturityDate":"{first + years}-{month:02d}-15","notionalPrincipal":{10000 + number % 90000},'
            f'"nominalInterestRate":0.0{number % 9 + 1},"dayCountConvention":"30E360","cycleOfInterestPayment":"{cycle}"'
            f'{more}}}')


def main() -> None:
    count, folder = int(sys.argv[1]), pathlib.Path(sys.argv[2])
    folder.mkdir(parents=True, exist_ok=True)
    with open(folder / "all.json", "w") as out:
        out.write("[\n")
        for number in range(count):
            out.write((",\n" if number else "") + loan(number))
        out.write("\n]\n")
    with open(folder / "all.txt", "w") as out:
        for year in range(2015, 2038):
            for code in range(3):
                out.write(f'{{"rate":{{"code":"RATE{code}","date":"{year}-01-01","value":0.0{(year + code) % 5 + 1}}}}}\n')
        out.write('{"ask":"*"}\n')


if __name__ == "__main__":
    main()
