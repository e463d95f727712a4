"""The style of the sheet: on a desk, on a phone and on paper. Rests on forms.py for that of its pictures."""

import re

from .forms import STYLE as PICTURE_STYLE

DIGITS_SHOWN = 16  # of the library's sha256, at the foot of each printed page

STYLE = """
@page{size:A4;margin:14mm 13mm 16mm;
@bottom-left{content:"Support sheet, library LIBRARY_DIGITS…";font:8pt sans-serif;color:#444}
@bottom-right{content:counter(page) " / " counter(pages);font:8pt sans-serif;color:#444}}
:root{color-scheme:light}*{box-sizing:border-box}
html{-webkit-text-size-adjust:100%;text-size-adjust:100%}
body{margin:0 auto;padding:1.5rem;max-width:70rem;background:#fff;color:#111;
font:1rem/1.45 system-ui,"Segoe UI",Roboto,Helvetica,Arial,sans-serif;overflow-wrap:anywhere;
print-color-adjust:exact;-webkit-print-color-adjust:exact}
code,pre,.file{font-family:ui-monospace,"SFMono-Regular",Menlo,Consolas,"DejaVu Sans Mono",monospace}
h1{font-size:1.1rem;margin:0 0 .6rem;font-weight:600;color:#444}
h2{font-size:1.3rem;margin:2.2rem 0 .6rem;line-height:1.25;break-after:avoid}
h3{font-size:1.1rem;margin:0 0 .2rem;line-height:1.3}
p{margin:.4rem 0}
a{color:#005a8c}
.verdict{border:3px solid;border-left-width:14px;border-radius:4px;padding:.6rem 1rem .7rem;margin:0 0 1rem}
.verdict.well{border-color:#009e73;background:#eefaf6}.verdict.failed{border-color:#d55e00;background:#fff3ea}
.verdict p{margin:0}.verdict .result{font-size:2rem;font-weight:700;line-height:1.2;margin-bottom:.3rem}
.badge{display:inline-block;border:1.5px solid;border-radius:3px;padding:0 .35em;font-size:.8em;font-weight:700;
white-space:nowrap;line-height:1.35}
.badge.well{border-color:#009e73;color:#00573f;background:#eefaf6}
.badge.differs{border-color:#7a3e68;border-style:dashed;color:#5c2a4d;background:#faeef6}
.badge.failed{border-color:#d55e00;border-style:double;border-width:3px;color:#8a3400;background:#fff3ea}
.other{border:2px dashed #7a3e68;padding:.4rem .8rem;background:#faeef6;font-size:1.1rem}
.facts{margin:0;display:grid;gap:.15rem}
.facts div{display:grid;grid-template-columns:6rem 1fr;gap:.6rem}
.facts dt{color:#555}.facts dd{margin:0}
.signs h2{margin-top:1.4rem;font-size:1rem}
.sign{display:grid;grid-template-columns:4fr 5fr 3fr;gap:1.2rem;margin-top:2.4rem;break-inside:avoid}
.sign span{border-top:1px solid #111;font-size:.8rem;color:#444;padding-top:.15rem}
.contents div{columns:2 22rem;column-gap:2rem}
.contents section{margin:0 0 .8rem}.contents h3{font-size:1rem;break-after:avoid}
.contents ul{list-style:none;margin:0;padding:0}
.contents li{padding:.12em 0 .12em 5.6em;text-indent:-5.6em;break-inside:avoid;line-height:1.35}
.contents li .badge{text-indent:0;min-width:6.5em}
.legend ul{list-style:none;margin:.6rem 0 0;padding:0;display:grid;gap:.3rem 1.4rem;
grid-template-columns:repeat(auto-fill,minmax(19rem,1fr))}
.legend li{display:grid;grid-template-columns:4.6rem 1fr;gap:.6rem;align-items:center;font-size:.9rem;line-height:1.25}
.legend svg{width:100%}
article{border-top:2px solid #111;padding:.9rem 0 1.2rem}
.top{display:grid;grid-template-columns:minmax(0,4fr) minmax(0,6fr);gap:1.6rem;align-items:start;break-inside:avoid}
.top.wide{display:block}.two{display:grid;grid-template-columns:1fr 1fr;gap:1.6rem;margin-top:.6rem}
.file{font-size:.85rem;color:#555;margin:0 0 .4rem}
figure{margin:0;min-width:0}figcaption{font-weight:700;margin-bottom:.2rem}
figure svg{display:block;width:100%;max-width:37rem;border:1px solid #bbb;padding:.2rem}
.nothing{color:#555;font-style:italic}
.remark{padding:.3rem .6rem;border-left:6px solid}
.remark.well{border-color:#009e73;padding:0 .6rem}
.remark.differs{border-color:#7a3e68;border-left-style:dashed;background:#faeef6}
.remark.failed{border-color:#d55e00;border-left-style:double;background:#fff3ea}
.said{font-size:.9rem}
details{margin:.6rem 0 0}
summary{cursor:pointer;padding:.25rem 0;font-weight:600;color:#005a8c}
pre.transcript,.both{margin:.3rem 0 0;font:.82rem/1.5 ui-monospace,"SFMono-Regular",Menlo,Consolas,"DejaVu Sans Mono",
monospace;border:1px solid #ccc;padding:.4rem 0}
.l{display:grid;grid-template-columns:2.9rem minmax(0,1fr);gap:.7rem;padding-right:.5rem;white-space:pre-wrap;
overflow-wrap:anywhere}
.l i{font-style:normal;color:#767676;text-align:right;user-select:none}
.l code{font:inherit}
.l.command code{font-weight:700}
.l.comment code{font-style:italic;color:#4d5b50}
.l.source code{border-left:3px solid #bbb;padding-left:.6rem}
.l.answer code,.l.refusal code,.l.expected code,.l.unexpected code{padding-left:1.4rem;color:#00507d}
.l.expected code,.l.expected i{color:#5a6b62}
.l.refusal i,.l.unexpected i{color:#a3002f;font-weight:700}
.l.refusal code{color:#a3002f;font-weight:700}
.l.unexpected{background:#ffe3cf;outline:2px solid #d55e00;outline-offset:-2px}
.l.unexpected code{color:#7a2c00;font-weight:700}
.l.none code{font-style:italic;color:#555;padding-left:1.4rem}
.both .heads,.pair{display:grid;grid-template-columns:minmax(0,1fr) minmax(0,1fr)}
.both .heads span{font:700 .9rem/1.4 system-ui,sans-serif;padding:0 .8rem .3rem 3.6rem}
.pair>:nth-child(2){border-left:1px solid #ccc}
.pair.apart{background:#ffef9e;border-top:1px solid #111;border-bottom:1px solid #111;margin-top:-1px}
.pair.apart i{color:#111;font-weight:700}
.pair .who{display:none;font:600 .75rem/1.3 system-ui,sans-serif;padding-left:3.6rem}
.first{font:700 .85rem/1.4 system-ui,sans-serif;margin:.5rem 0 .1rem;padding-left:1rem}
.alike{margin:0}.alike summary{font:.8rem/1.4 system-ui,sans-serif;padding-left:3.6rem;background:#f3f3f3}
@media screen and (max-width:48rem){
body{padding:.7rem}
.verdict .result{font-size:1.5rem}
.top,.two{display:block}.top>*+*,.two>*+*{margin-top:.8rem}
.facts div{grid-template-columns:4.6rem 1fr}
.sign{gap:.7rem}
pre.transcript,.both{font-size:.78rem}
.l{grid-template-columns:1.9rem minmax(0,1fr);gap:.5rem}
.both .heads{display:none}.pair{display:block}.pair .again{display:none}.pair>:nth-child(2){border-left:0}
.pair .who{display:block;padding-left:2.4rem}.alike summary{padding-left:2.4rem}
}
@media print{
body{padding:0;max-width:none;font-size:9.5pt}
h2{margin-top:1rem}.sign{margin-top:2rem}
.contents section{margin-bottom:.4rem}.contents h3{font-size:.95rem}
.contents ul{font-size:7.5pt}.contents li{padding-top:0;padding-bottom:.1em;line-height:1.2}
a{color:inherit;text-decoration:none}
.legend{break-inside:avoid}
.contents div{columns:2}
.top{grid-template-columns:minmax(0,3.6fr) minmax(0,6.4fr);gap:1.2rem}
.top.wide,.top{break-inside:avoid}
figure svg{max-height:225mm}
figure,.remark,.legend li,.verdict{break-inside:avoid}
article{padding:.7rem 0 .8rem}
pre.transcript,.both{font-size:7.5pt}
details:not([open]){display:none}
.legend ul{grid-template-columns:repeat(3,1fr);gap:.2rem .9rem}
.legend li{grid-template-columns:3.4rem 1fr;font-size:.85rem}
}
"""


def style(sha256):
    digits = re.sub("[^0-9a-f]", "", sha256.lower())[:DIGITS_SHOWN]
    return STYLE.replace("LIBRARY_DIGITS", digits) + PICTURE_STYLE
