"""How the page looks: large, for the last row of a class. Nothing is loaded from anywhere."""

STYLE = """
* { box-sizing: border-box; }
body { margin: 0; padding: 24px 32px; font: 26px/1.4 "DejaVu Sans", Verdana, sans-serif; color: #111; background: #fff; }
h1 { font-size: 36px; margin: 0 0 16px; }
h2 { font-size: 34px; margin: 0; } .about { margin: 0 0 12px; color: #444; white-space: nowrap; overflow: hidden; text-overflow: ellipsis; }
h3 { font-size: 26px; margin: 28px 0 8px; color: #444; }
form { display: grid; grid-template-columns: 1fr auto 1fr; gap: 12px 32px; align-items: center; margin-bottom: 24px; }
textarea { grid-column: 1 / 4; font: 28px/1.4 "DejaVu Sans Mono", monospace; padding: 12px; border: 3px solid #333; width: 100%; }
select, button { font: inherit; padding: 8px 16px; border: 3px solid #333; background: #fff; }
button { background: #0b5; color: #000; font-weight: bold; }
main { display: grid; grid-template-columns: 1fr 1fr; gap: 32px; }
section { min-width: 0; border-top: 6px solid #333; padding-top: 16px; }
.shelf { display: grid; grid-template-columns: repeat(auto-fill, minmax(180px, 1fr)); gap: 14px; padding-bottom: 10px; border-bottom: 10px solid #888; }
.label { border: 3px solid #333; padding: 6px 10px; background: #fff; }
.label b { display: block; font-size: 26px; } .label i { display: block; font: bold 38px "DejaVu Sans Mono", monospace; text-align: right; min-height: 53px; }
.label small { font-size: 24px; color: #444; display: block; min-height: 34px; }
.differs { background: #fe6; } tr.differs { font-weight: bold; } .label.differs { border-width: 6px; padding: 3px 7px; }
table { border-collapse: collapse; font-size: 28px; } th, td { border: 2px solid #999; padding: 4px 14px; text-align: left; }
td.number { text-align: right; font-family: "DejaVu Sans Mono", monospace; }
pre { font: 24px/1.5 "DejaVu Sans Mono", monospace; white-space: pre-wrap; margin: 0; }
ins { background: #bf9; text-decoration: none; border-bottom: 4px solid #060; }
ul { margin: 8px 0; padding-left: 28px; font-size: 24px; } .refused { background: #fdd; border-left: 10px solid #c00; padding: 12px 16px; white-space: pre-wrap; }
"""
