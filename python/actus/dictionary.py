"""The terms that each kind reads, in their order, with their forms, and the names of the standard's dictionary that are
passed over (docs/TERMS.md)."""

from __future__ import annotations

LOANS = ("PAM", "LAM", "NAM", "ANN")
AMORTIZERS = ("LAM", "NAM", "ANN")
KINDS = (*LOANS, "STK", "FXOUT", "SWPPV", "SWAPS", "CAPFL", "OPTNS", "FUTUR", "CEG", "CEC")
STRUCTURED = ("SWAPS", "CAPFL", "OPTNS", "FUTUR", "CEG", "CEC")

ROLES = "RPA RFL RF BUY LG OBL COL RPL PFL PF SEL ST GUA".split()
CHOICES = {
    "contractRole": ROLES,
    "calendar": ["NC", "MF"],
    "businessDayConvention": "NOS NULL SCF SCMF CSF CSMF SCP SCMP CSP CSMP".split(),
    "endOfMonthConvention": ["SD", "EOM"],
    "dayCountConvention": "AA A360 A365 30E360 30E360ISDA B252".split(),
    "feeBasis": ["A", "N"],
    "penaltyType": ["O", "A", "N", "I"],
    "interestCalculationBase": ["NT", "NTIED", "NTL"],
    "deliverySettlement": ["D", "S"],
    "optionType": ["C", "P", "CP"],
    "optionExerciseType": ["E", "A", "B"],
    "guaranteedExposure": ["NO", "NI", "MV"],
    "scalingEffect": [a + b + c for a in "IO0" for b in "NO0" for c in "O0"],
}
CREDIT_EVENTS = ("DL", "DQ", "DF")
REFERENCE_TYPES = ("CNT", "CID", "MOC")
REFERENCE_ROLES = ("UDL", "FIL", "SEL", "COVE", "COVI")

_FORMS = {
    "name": "contractID marketObjectCode marketObjectCodeOfRateReset marketObjectCodeOfScalingIndex",
    "currency": "currency settlementCurrency currency2",
    "day": """statusDate maturityDate purchaseDate terminationDate initialExchangeDate capitalizationEndDate
        cycleAnchorDateOfInterestPayment cycleAnchorDateOfPrincipalRedemption cycleAnchorDateOfInterestCalculationBase
        cycleAnchorDateOfRateReset cycleAnchorDateOfFee cycleAnchorDateOfScalingIndex""",
    "cycle": """cycleOfInterestPayment cycleOfPrincipalRedemption cycleOfInterestCalculationBase cycleOfRateReset
        cycleOfFee cycleOfScalingIndex""",
    "period": "settlementPeriod",
    "decimal": """priceAtPurchaseDate priceAtTerminationDate notionalPrincipal premiumDiscountAtIED nominalInterestRate
        nominalInterestRate2 accruedInterest nextPrincipalRedemptionPayment interestCalculationBaseAmount nextResetRate
        rateSpread rateMultiplier lifeCap lifeFloor periodCap periodFloor feeRate feeAccrued penaltyRate
        scalingIndexAtContractDealDate notionalPrincipal2 optionStrike1 optionStrike2 futuresPrice
        coverageOfCreditEnhancement""",
}
FORM = {term: form for form, terms in _FORMS.items() for term in terms.split()} | {term: "choice" for term in CHOICES}
FORM |= {"contractType": "kind", "creditEventTypeCovered": "credit events", "contractStructure": "structure"}

_COMMON = "contractID contractType contractRole statusDate currency".split()
_DAYS = "calendar businessDayConvention endOfMonthConvention marketObjectCode".split()
_TRADES = "purchaseDate priceAtPurchaseDate terminationDate priceAtTerminationDate".split()
_RESETS = """cycleAnchorDateOfRateReset cycleOfRateReset marketObjectCodeOfRateReset nextResetRate rateSpread
    rateMultiplier lifeCap lifeFloor periodCap periodFloor""".split()
_LOAN = """initialExchangeDate maturityDate notionalPrincipal nominalInterestRate accruedInterest premiumDiscountAtIED
    dayCountConvention cycleAnchorDateOfInterestPayment cycleOfInterestPayment capitalizationEndDate""".split() + _RESETS + """
    cycleAnchorDateOfFee cycleOfFee feeRate feeBasis feeAccrued scalingEffect cycleAnchorDateOfScalingIndex
    cycleOfScalingIndex marketObjectCodeOfScalingIndex scalingIndexAtContractDealDate penaltyType penaltyRate""".split()
_REDEMPTION = """cycleAnchorDateOfPrincipalRedemption cycleOfPrincipalRedemption nextPrincipalRedemptionPayment
    interestCalculationBase interestCalculationBaseAmount cycleAnchorDateOfInterestCalculationBase
    cycleOfInterestCalculationBase""".split()
_COVER = """maturityDate coverageOfCreditEnhancement guaranteedExposure creditEventTypeCovered settlementPeriod
    contractStructure""".split()
_OWN = {
    "PAM": _LOAN, "LAM": _LOAN + _REDEMPTION, "NAM": _LOAN + _REDEMPTION, "ANN": _LOAN + _REDEMPTION, "STK": [],
    "FXOUT": "maturityDate notionalPrincipal currency2 notionalPrincipal2 deliverySettlement".split(),
    "SWPPV": """initialExchangeDate maturityDate notionalPrincipal nominalInterestRate nominalInterestRate2
        dayCountConvention cycleAnchorDateOfInterestPayment cycleOfInterestPayment""".split() + _RESETS,
    "SWAPS": ["deliverySettlement", "contractStructure"],
    "CAPFL": ["maturityDate", "lifeCap", "lifeFloor", "contractStructure"],
    "OPTNS": """maturityDate optionType optionStrike1 optionStrike2 optionExerciseType settlementPeriod
        contractStructure""".split(),
    "FUTUR": "maturityDate futuresPrice settlementPeriod contractStructure".split(), "CEG": _COVER, "CEC": _COVER,
}


def _terms_of(kind: str) -> tuple[str, ...]:
    settled = [] if kind == "FXOUT" else ["settlementCurrency"]
    traded = [] if kind in ("CEG", "CEC") else _TRADES
    return (*_COMMON, *settled, *_DAYS, *traded, *_OWN[kind])


TERMS = {kind: _terms_of(kind) for kind in KINDS}
ALL_TERMS = tuple(dict.fromkeys(term for kind in KINDS for term in TERMS[kind]))

_WITH_EFFECT = {
    "interest is paid at the end of its period": "cyclePointOfInterestPayment",
    "a rate holds from its reset on": "cyclePointOfRateReset",
    "a rate is read as of the day of its reset": "fixingPeriod fixingDays",
    "the payments redeem all by maturityDate": "amortizationDate",
    "the notional is paid out at the initial exchange, and nothing is drawn later": "creditLineAmount",
    "each prepayment that a script observes counts, on its day":
        "prepaymentEffect prepaymentPeriod objectCodeOfPrepaymentModel",
    "each prepayment has the penalty of penaltyType": "maximumPenaltyFreeDisbursement",
    "no payment is late, and none bears interest for delay": "delinquencyRate",
    "both multipliers begin with 1": "interestScalingMultiplier notionalScalingMultiplier",
    "the index is divided by scalingIndexAtContractDealDate": "scalingIndexAtStatusDate",
    "the accrued interest of the other side is computed": "accruedInterest2",
    "dividends are observed by a script": """cycleAnchorDateOfDividend cycleOfDividend nextDividendPaymentAmount
        exDividendDate cycleAnchorDateOfDividendPayment cycleOfDividendPayment marketObjectCodeOfDividendRate""",
    "a price or a dividend is that of the whole contract": "quantity",
    "an exercise is observed by a script, up to maturityDate, and its amount is computed":
        "cycleAnchorDateOfOptionality cycleOfOptionality optionExerciseEndDate exerciseDate exerciseAmount",
    "the time to settlement is settlementPeriod": "settlementDays",
    "no margin is paid": """initialMargin variationMargin maintenanceMarginLowerBound maintenanceMarginUpperBound
        cycleAnchorDateOfMargining cycleOfMargining clearingHouse""",
    "a loan has one cycle of each sort, and there is no LAX": """arrayCycleAnchorDateOfPrincipalRedemption
        arrayCycleOfPrincipalRedemption arrayNextPrincipalRedemptionPayment arrayIncreaseDecrease
        arrayCycleAnchorDateOfInterestPayment arrayCycleOfInterestPayment arrayCycleAnchorDateOfRateReset
        arrayCycleOfRateReset arrayRate arrayFixedVariable""",
    "nothing is switched by a boundary, and there is no BNDCP": """boundaryValue boundaryDirection boundaryEffect
        boundaryLegInitiallyActive boundaryMonitoringAnchorDate boundaryMonitoringCycle boundaryMonitoringEndDate""",
    "there is no CLM and no UMP": "xDayNotice x_DayNotice",
    "there is no UMP": "objectCodeOfCashBalanceModel",
}
WITH_EFFECT = {name: here for here, names in _WITH_EFFECT.items() for name in names.split()}
WITHOUT_EFFECT = frozenset("""creatorID counterpartyID legalEntityIDRecordCreator legalEntityIDCounterparty
    contractDealDate seniority unit marketValueObserved contractPerformance nonPerformingDate gracePeriod
    delinquencyPeriod""".split())
KNOWN_NAMES = tuple(dict.fromkeys((*ALL_TERMS, *WITH_EFFECT, *sorted(WITHOUT_EFFECT))))


def class_of(name: str, kind: str | None) -> tuple[str, str]:
    """Of a name that a kind doesn't use: its class, `effect` (it changes cash flows by the standard), `none` (it
    doesn't), `other kind` or `unknown`, and a few words more."""
    if name in WITH_EFFECT:
        return "effect", WITH_EFFECT[name]
    if name in WITHOUT_EFFECT:
        return "none", "it has no effect on cash flows"
    if name in ALL_TERMS:
        return "other kind", f"it is no term of a {kind}" if kind else "it is a term of another kind"
    meant = nearest(name, KNOWN_NAMES)
    return "unknown", f"did you mean {meant}?" if meant else "no such name is known"


def nearest(name: str, among: tuple[str, ...] | list[str]) -> str | None:
    """The name that is nearest to another one by letters that are missing, too many, wrong or in the wrong order, where
    it is near."""
    folded = _folded(name)
    limit = (0 if len(name) <= 2 else 1 if len(name) <= 5 else 2 if len(name) <= 11 else 3)
    if len(name) > 64:
        return None
    best, least = None, limit + 1
    for other in among:
        if abs(len(other) - len(name)) <= 8 and (far := _distance(folded, _folded(other), least)) < least:
            best, least = other, far
    return best


def _folded(name: str) -> str:
    return "".join(c for c in name.lower() if c not in "_- ./")


def _distance(one: str, other: str, most: int) -> int:
    """How many letters have to be changed, at most so many: by insertions, deletions, changes, and two that change
    places."""
    if abs(len(one) - len(other)) >= most:
        return most
    before, last = [], list(range(len(other) + 1))
    for i, a in enumerate(one, 1):
        line = [i]
        for j, b in enumerate(other, 1):
            cost = min(last[j] + 1, line[j - 1] + 1, last[j - 1] + (a != b))
            if i > 1 and j > 1 and a == other[j - 2] and one[i - 2] == b:
                cost = min(cost, before[j - 2] + 1)
            line.append(cost)
        if min(line) >= most:
            return most
        before, last = last, line
    return min(last[-1], most)
