#!/usr/bin/env python3
"""policy_schema.py

Checks docs/policy.schema.json, which editors can use, against the policy texts of tests/policy_texts.py:
it accepts each text that the program accepts, and refuses each that the program refuses, but for what no
schema sees: what is not JSON, what a scope given as a text stands for, a number written as 1.0 or -0, how many
entries a limit allows that the policy sets itself, and half of a surrogate pair. It needs a validator, the Python package jsonschema (Debian: python3-jsonschema),
version 4 or later; where that is missing it says so, checks nothing, and ends with status 0."""
import json
import os
import sys

sys.dont_write_bytecode = True
import policy_texts

HERE = os.path.dirname(os.path.abspath(__file__))
SCHEMA = os.path.join(os.path.dirname(HERE), 'docs', 'policy.schema.json')


def value_of(text):
    """The JSON value of the text, or None where it has none that a schema may judge."""
    try:
        value = json.loads(text.decode('utf-8'), parse_int=lambda digits: 0.0 if digits == '-0' else int(digits))
        json.dumps(value, ensure_ascii=False).encode('utf-8')
        return value
    except (ValueError, RecursionError):
        return None


def is_hidden(value):
    """Whether the program may find a fault in the value that no schema sees."""
    grants = [each for part in ('clients', 'sources') for each in value.get(part, {}).values()]
    objects = [grant for grant in grants if isinstance(grant, dict)]
    scopes = grants + [each['scope'] for each in objects]
    numbers = [value['version'], *value.get('limits', {}).values()] + [each.get('exp') for each in objects]
    is_counted = any(name in value.get('limits', {}) for name in ('clients', 'sources', 'topics'))
    return (is_counted or any(isinstance(it, float) for it in numbers)
            or any(isinstance(it, str) for it in scopes))


def main():
    try:
        from jsonschema import Draft202012Validator
    except ImportError:
        print('the schema of policies is NOT checked: no Python package jsonschema 4 (python3-jsonschema)')
        return 0
    with open(SCHEMA, encoding='utf-8') as file:
        schema = json.load(file)
    Draft202012Validator.check_schema(schema)
    validator = Draft202012Validator(schema)
    passed = failed = 0
    for name, said, text in policy_texts.all_texts():
        value = value_of(text)
        if value is None:
            continue
        is_accepted, is_valid = said == policy_texts.ACCEPTED, validator.is_valid(value)
        if is_accepted == is_valid or (is_valid and is_hidden(value)):
            passed += 1
        else:
            failed += 1
            print('%s: %s, and the schema says %s' % (name, said, 'valid' if is_valid else 'not valid'))
    print('%d passed, %d failed' % (passed, failed))
    return 0 if passed and not failed else 1


if __name__ == '__main__':
    sys.exit(main())
