# SPDX-License-Identifier: MIT
"""msat-explain: a condition as a person looks at it. Every number and every verdict is a call of msat's library; what is Python here,
the reading of what was pasted, the counting of ways and the drawing, is tested and not proved.

`answer` gives an `Explanation`, or a `Refusal`; `report`, `document` and `page` make text, JSON and HTML of either.
"""
