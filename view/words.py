"""What the page calls things: commands, codes, checks, blocks and the elements of a policy, in words.

The codes and checks are those of docs/machine-rules.md, the blocks those of docs/statuses-and-lines.md.
"""

COMMANDS = {
    0x134: "NV_Increment", 0x137: "NV_Write", 0x149: "PolicyNV", 0x14b: "Duplicate", 0x14e: "NV_Read",
    0x151: "PolicySecret", 0x155: "HMAC", 0x15e: "Unseal", 0x160: "PolicySigned", 0x161: "ContextLoad",
    0x162: "ContextSave", 0x165: "FlushContext", 0x16a: "PolicyAuthorize", 0x16b: "PolicyAuthValue",
    0x16c: "PolicyCommandCode", 0x16d: "PolicyCounterTimer", 0x16e: "PolicyCpHash", 0x16f: "PolicyLocality",
    0x170: "PolicyNameHash", 0x171: "PolicyOR", 0x172: "PolicyTicket", 0x176: "StartAuthSession",
    0x177: "VerifySignature", 0x17e: "PCR_Read", 0x17f: "PolicyPCR", 0x180: "PolicyRestart", 0x182: "PCR_Extend",
    0x187: "PolicyPhysicalPresence", 0x188: "PolicyDuplicationSelect", 0x189: "PolicyGetDigest",
    0x18c: "PolicyPassword", 0x18f: "PolicyNvWritten", 0x192: "PolicyAuthorizeNV",
}

# What stands under an event of the lanes, where the command's name is too long for it.
SHORT = {
    "FlushContext": "flush", "PolicyAuthValue": "authValue", "PolicyAuthorize": "approve",
    "PolicyAuthorizeNV": "approve NV", "PolicyCommandCode": "code", "PolicyCounterTimer": "timer",
    "PolicyDuplicationSelect": "duplication", "PolicyGetDigest": "digest", "PolicyPhysicalPresence": "presence",
    "PolicyRestart": "restart", "StartAuthSession": "start", "VerifySignature": "verify", "ContextLoad": "load",
    "ContextSave": "save", "NV_Increment": "increment",
}

CHECKS = {
    "AuthValue": "the entity’s authorization value is wrong or missing",
    "CommandCode": "the session is for another command",
    "Expired": "a deadline has passed",
    "Hashes": "the session is bound to other parameters or entities",
    "Locality": "sent from a locality that the session does not allow",
    "NvWritten": "the entity is no index in the state that was asked for",
    "Password": "the authorization value is wrong",
    "PcrChanged": "a PCR was extended since the session’s PolicyPCR",
    "PolicyFail": "the session has gone no whole way of the entity’s policy",
    "Presence": "no person is at the machine",
    "RoleNeedsCode": "Duplicate needs a way that names it",
    "Unavailable": "the entity is not to be had by this kind of authorization",
}

CODES = {
    0x01e: "a wrong tag", 0x083: "another hash stands in the index", 0x084: "another digest stands in the index",
    0x095: "bytes are left over", 0x124: "a password is not taken for this", 0x125: "it has to be authorized",
    0x126: "the comparison does not hold", 0x127: "the PCR counter is at its end",
    0x128: "a PCR was extended meanwhile", 0x12f: "not to be had by this kind of authorization",
    0x142: "not as long as its head tells", 0x143: "a command code that does not fit", 0x144: "a wrong authorization area",
    0x145: "it is not to be authorized", 0x146: "outside of the index", 0x149: "no authority over the index",
    0x14a: "the index was never written", 0x151: "the session is bound to something else",
    0x182: "the entity’s attributes do not allow it", 0x184: "a handle of another kind", 0x19a: "a handle is cut off",
    0x19c: "it is no HMAC key that may sign", 0x1c3: "a hash that is not taken", 0x1c4: "a value is not the expected one",
    0x1cb: "the session is not there", 0x1cd: "out of range", 0x1cf: "the nonce is not the session’s",
    0x1d5: "a wrong length", 0x1da: "parameters are cut off", 0x1df: "no context that this machine gave",
    0x1e3: "the ticket’s time has passed", 0x282: "an index of another kind", 0x284: "a handle of another kind",
    0x2c4: "the offset is behind the index", 0x2db: "the signature is wrong", 0x4c4: "no ticket for this approval",
    0x4e3: "the deadline has passed", 0x5db: "the signature is by another key", 0x5e0: "not this machine’s ticket for this",
    0x903: "there is no room", 0x907: "another locality", 0x910: "the session or object is not there",
    0x911: "the second entity is not there", 0x912: "the third entity is not there", 0x918: "the session is not there",
    0x922: "try again", 0x982: "session attributes that are not taken", 0x984: "a session of another kind",
    0x98e: "the authorization value is wrong", 0x98f: "a password has no nonce", 0x990: "nobody is there",
    0x995: "a wrong length in the authorization", 0x99d: "the policy is not met", 0x9a2: "the authorization value is wrong",
    0x9a3: "a deadline has passed", 0x9a4: "for another command",
}

# What a code means at a policy command of this kind, where more can be said.
OWN_CODES = {
    ("Pcr", 0x1c4): "the PCRs have other values", ("Nv", 0x126): "the index compares otherwise",
    ("CounterTimer", 0x126): "the clock compares otherwise", ("Signed", 0x5db): "the client’s key is another",
    ("Secret", 0x9a2): "the client’s secret is wrong or missing",
    ("Secret", 0x98e): "the client’s secret is wrong or missing",
    ("CommandCode", 0x1c4): "another command code was set", ("NvWritten", 0x1c4): "the other state was set",
    ("Locality", 0x1cd): "no locality is in all sets", ("Or", 0x1c4): "the digest is none of the branches’",
    ("Approve", 0x1c4): "the digest is not the approved one",
}

BLOCKS = {
    "outside": "the store has no document that is approved for it",
    "nosession": "every session is taken",
    "noentity": "the entity is not on this machine",
    "nokey": "the client holds no key for it",
    "skipped": "not tried, since a document or a key is missing",
}

RULES = {
    "Code": "two command codes exclude each other", "Locality": "no locality is in all sets",
    "CpHash": "two cpHashes exclude each other", "NameHash": "two nameHashes exclude each other",
    "Kinds": "a cpHash and a nameHash exclude each other", "NvWritten": "written and not written exclude each other",
}

HIERARCHIES = {"40000001": "the owner", "4000000b": "the endorsement hierarchy", "4000000a": "the lockout"}
HIERARCHY_PATHS = {"HS": "the owner", "HE": "the endorsement hierarchy", "LOCKOUT": "the lockout"}

COMPARISONS = {
    "EQ": "=", "NEQ": "≠", "UNSIGNED_GT": ">", "UNSIGNED_LT": "<", "UNSIGNED_GE": "≥", "UNSIGNED_LE": "≤",
    "SIGNED_GT": "> (signed)", "SIGNED_LT": "< (signed)", "SIGNED_GE": "≥ (signed)", "SIGNED_LE": "≤ (signed)",
    "BITSET": "has all bits of", "BITCLEAR": "has no bit of",
}

CLOCK = {0: "time since power-on", 8: "clock", 16: "count of resets", 20: "count of restarts", 24: "clock is safe"}


def plural(number, one, many=None):
    return f"{number} {one if number == 1 else many or one + 's'}"


def command_name(code):
    return "a buffer without a command" if code is None else COMMANDS.get(code, "a command that is not in the profile")


def short_name(code):
    name = "no command" if code is None else COMMANDS.get(code, "another")
    return SHORT.get(name, name.removeprefix("Policy"))


def same_path(path):
    """A path as paths are compared: without one leading `/` and a first component that begins with `P_`."""
    path = path.removeprefix("/")
    first, slash, rest = path.partition("/")
    return rest if first.startswith("P_") and slash else path


def why_stopped(event):
    """Why the machine refused or denied a command: its check, or its code, in words."""
    return CHECKS.get(event.check) or CODES.get(event.answer, "refused by a rule")


def why_blocked(why, kinds):
    """A block's WHY in words: what stops the way, and behind it the program's own word."""
    words = why.split()
    if words[0] in ("move", "verify") and len(words) > 2:
        kind = kinds[int(words[1]) - 1] if int(words[1]) <= len(kinds) else "?"
        before = "the signature for " if words[0] == "verify" else ""
        return f"at {before}step {words[1]} ({kind}): {reason(words[2:], kind)}"
    if words[0] == "goal" and len(words) > 1:
        return f"at the goal: {reason(words[1:], '')}"
    if words[0] in ("start", "restart") and len(words) > 1:
        return f"at the session’s {words[0]}: {reason(words[1:], '')}"
    return f"{BLOCKS[why]} ({why})" if why in BLOCKS else why


def reason(words, kind):
    """The end of a WHY: `answer R`, `denied WORD`, a code or a word."""
    last = words[-1]
    if words[0] == "denied":
        return f"{CHECKS.get(last, 'denied')} ({last})"
    if last in BLOCKS:
        return f"{BLOCKS[last]} ({last})"
    code = int(last, 16)
    return f"{OWN_CODES.get((kind, code)) or CODES.get(code, 'the machine would refuse it')} ({code:03x})"


def text_of(digits):
    """Bytes as the text that they spell, where that is printable; else their digits."""
    try:
        text = bytes.fromhex(digits).decode()
    except ValueError:
        return digits
    return f"“{text}”" if text and text.isprintable() else digits


def entity_of(element, *members):
    """Which entity an element names, by the first of these members that it has."""
    for member in members:
        value = element.get(member)
        if isinstance(value, str) and member.endswith("Path"):
            return HIERARCHY_PATHS.get(same_path(value), value)
        if isinstance(value, str):
            return HIERARCHIES.get(value, f"the entity with the Name {value[:12]}…")
        if isinstance(value, dict) and "nvIndex" in value:
            return f"the index 0x{value['nvIndex']:08x}"
        if isinstance(value, dict):
            return f"the key with unique {value.get('unique', '')[:12] or 'empty'}…"
    return "no entity"


def for_ref(element):
    return f", for {text_of(element['policyRef'])}" if element.get("policyRef") else ""


def until(element):
    seconds = element.get("expiration", 0)
    return f", for {abs(seconds)} s" + (" with a ticket" if seconds < 0 else "") if seconds else ""


def pcr_words(element):
    numbers = element.get("currentPCRs") or [item["pcr"] for item in element.get("pcrs", [])]
    named = f"{'PCR' if len(numbers) == 1 else 'PCRs'} {', '.join(map(str, numbers))}" if numbers else "no PCR"
    return f"{named} as {'written' if 'pcrs' in element else 'on the machine'}"


def nv_words(element):
    offset = f" at offset {element['offset']}" if element.get("offset") else ""
    operand = "0x" + element["operandB"] if element["operandB"] else "nothing"
    return f"{entity_of(element, 'nvPath', 'nvPublic')} {COMPARISONS[element['operation']]} {operand}{offset}"


def timer_words(element):
    what = CLOCK.get(element.get("offset", 0), f"the clock’s bytes from {element.get('offset', 0)} on")
    return f"{what} {COMPARISONS[element['operation']]} {int(element['operandB'] or '0', 16)}"


def locality_words(element):
    return " or ".join(str(place) for place in range(5) if element["locality"] >> place & 1)


def names_words(element):
    return element.get("nameHash", "")[:16] or ", ".join(element.get("namePaths") or element.get("objectNames", []))


ELEMENTS = {
    "POLICYAUTHORIZE": ("approval", lambda e: "any policy that " + entity_of(e, "keyPath", "keyPublic") + " approves"
                        + for_ref(e)),
    "POLICYAUTHORIZENV": ("approval", lambda e: "the policy whose digest stands in " + entity_of(e, "nvPath", "nvPublic")),
    "POLICYAUTHVALUE": ("own value", lambda e: "the entity’s authorization value, by HMAC"),
    "POLICYCOMMANDCODE": ("command", lambda e: f"{e['code']} and no other"),
    "POLICYCOUNTERTIMER": ("clock", timer_words),
    "POLICYCPHASH": ("parameters", lambda e: f"the command with cpHash {e['cpHash'][:12]}…"),
    "POLICYDUPLICATIONSELECT": ("duplication", lambda e: "to " + entity_of(e, "newParentPath", "newParentPublic",
                                                                           "newParentName")),
    "POLICYLOCALITY": ("locality", locality_words),
    "POLICYNAMEHASH": ("entities", names_words),
    "POLICYNV": ("index", nv_words),
    "POLICYNVWRITTEN": ("index", lambda e: "was written" if e["writtenSet"] else "was never written"),
    "POLICYPASSWORD": ("own value", lambda e: "the entity’s authorization value, in the clear"),
    "POLICYPCR": ("measured", pcr_words),
    "POLICYPHYSICALPRESENCE": ("person", lambda e: "at the machine"),
    "POLICYSECRET": ("secret", lambda e: "of " + entity_of(e, "objectPath", "objectName") + for_ref(e) + until(e)),
    "POLICYSIGNED": ("signature", lambda e: "by " + entity_of(e, "keyPath", "keyPublic") + for_ref(e) + until(e)),
}


def element_words(element):
    """An element of the canonical text in words: what it asks for, and of what."""
    what, detail = ELEMENTS.get(element["type"], (element["type"], lambda e: ""))
    return what, detail(element)
