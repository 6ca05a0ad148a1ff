# SPDX-License-Identifier: MIT OR Apache-2.0
"""Writes a database as the XML that `rrdtool restore` reads."""
from __future__ import annotations

from typing import Any, Dict, Iterator, Optional


def number(value: Optional[int], unknown: str = "NaN") -> str:
    """Returns a number with all its digits; rrdtool reads it as a double close to it."""
    return unknown if value is None else str(value)


def sources_as_xml(database: Dict[str, Any]) -> Iterator[str]:
    step, last = database["step"], database["last_time"]
    for source in database["sources"]:
        yield f"<ds><name>{source['name']}</name><type>{source['type']}</type>"
        yield f"<minimal_heartbeat>{source['heartbeat']}</minimal_heartbeat>"
        yield f"<min>{number(source['min'])}</min><max>{number(source['max'])}</max>"
        yield f"<last_ds>{number(source['last_raw'], 'U')}</last_ds><value>{source['sum']}</value>"
        yield f"<unknown_sec>{last % step - source['known_seconds']}</unknown_sec></ds>"


def as_xml(database: Dict[str, Any]) -> Iterator[str]:
    """Yields the lines of the XML."""
    step, last = database["step"], database["last_time"]
    yield '<?xml version="1.0" encoding="utf-8"?>'
    yield f"<rrd><version>0003</version><step>{step}</step><lastupdate>{last}</lastupdate>"
    yield from sources_as_xml(database)
    for archive in database["archives"]:
        yield f"<rra><cf>{archive['function']}</cf><pdp_per_row>{archive['steps']}</pdp_per_row>"
        yield f"<params><xff>{archive['xff']}</xff></params><cdp_prep>"
        passed = last // step % archive["steps"]
        for newest, preparation in zip(archive["rows"][-1]["cells"], archive["preparations"]):
            known = preparation["known_steps"]  # without one, the value is unknown in RRDtool and 0 in rrdi
            yield f"<ds><primary_value>{number(newest)}</primary_value><secondary_value>NaN</secondary_value>"
            yield f"<value>{number(preparation['value'] if known else None)}</value>"
            yield f"<unknown_datapoints>{passed - known}</unknown_datapoints></ds>"
        yield "</cdp_prep><database>"
        for row in archive["rows"]:
            yield "<row>" + "".join(f"<v>{number(cell)}</v>" for cell in row["cells"]) + "</row>"
        yield "</database></rra>"
    yield "</rrd>"
