"""The look of the page, and its filter."""

STYLE = """
:root { color-scheme: light dark; --line: #8885; --bad: #b3261e; --good: #1e6b34; --odd: #7a5c00; --soft: #8882; }
@media (prefers-color-scheme: dark) { :root { --bad: #ff8a80; --good: #7fd694; --odd: #e2c04c; } }
body { font: 16px/1.45 system-ui, sans-serif; margin: 0; }
main { max-width: 76rem; margin: 0 auto; padding: 0 1rem 4rem; }
nav { padding: .4rem 1rem; border-bottom: 1px solid var(--line); }
h1 { font-size: 1.5rem; margin: 1rem 0 0; } h2 { font-size: 1.2rem; margin: 2rem 0 .5rem; }
h4 { margin: .6rem 0; }
.hal { margin: 0; overflow-wrap: anywhere; }
.sums { display: flex; flex-wrap: wrap; gap: .5rem; padding: 0; list-style: none; }
.sums li { border: 1px solid var(--line); border-radius: .4rem; padding: .3rem .8rem; }
.sums b { font-size: 1.3rem; }
.good > summary .verdict, li.good b { color: var(--good); } .bad > summary .verdict, li.bad b { color: var(--bad); }
.kit > summary .verdict, li.kit b, .expected > summary .verdict, li.expected b { color: var(--odd); }
.filters:not([hidden]) { display: flex; flex-wrap: wrap; gap: .5rem 1.5rem; position: sticky; top: 0; padding: .5rem 0;
  background: Canvas; border-bottom: 1px solid var(--line); }
input, select { font: inherit; max-width: 100%; }
.wide { overflow-x: auto; }
table { border-collapse: collapse; font-size: .9rem; }
th, td { text-align: left; padding: .15rem .6rem; border-bottom: 1px solid var(--line); vertical-align: top;
  font-weight: normal; }
thead th { font-weight: bold; } tbody th { white-space: nowrap; } td.n { text-align: right; }
td:last-child { min-width: 16rem; }
img { background: #fff; }
tr.broken th { color: var(--bad); font-weight: bold; } tr.never { opacity: .65; }
details { border: 1px solid var(--line); border-radius: .4rem; margin: .4rem 0; padding: .3rem .8rem; }
summary { cursor: pointer; overflow-wrap: anywhere; }
:focus-visible { outline: 3px solid #4a8cff; outline-offset: 2px; }
li { overflow-wrap: anywhere; }
pre { margin: .4rem 0; font: .85rem/1.4 ui-monospace, monospace; white-space: pre-wrap; overflow-wrap: anywhere; }
.l { display: block; padding-left: 4rem; text-indent: -4rem; }
.l::before { content: attr(data-n); display: inline-block; width: 3rem; margin-right: 1rem; text-indent: 0;
  text-align: right; opacity: .6; }
.l.note { opacity: .7; } .l.device { background: #e5393526; } .l.framework { background: #f9a82530; }
.l em { color: var(--bad); } .l.framework em { color: var(--odd); } .l:target { outline: 2px solid #4a8cff; }
@media (max-width: 40rem) { .l { padding-left: 2.6rem; text-indent: -2.6rem; }
  .l::before { width: 2rem; margin-right: .6rem; } main { padding: 0 .6rem 3rem; } }
@media print { nav, .filters { display: none; } }
"""

SCRIPT = """
(function () {
  var form = document.querySelector('.filters'), told = form.querySelector('output');
  var scripts = document.querySelectorAll('main > details'), rules = document.querySelectorAll('.rules tbody tr');
  form.hidden = false;
  function has(element, text) {
    return !text || element.dataset.text.indexOf(text) >= 0 || element.textContent.toLowerCase().indexOf(text) >= 0;
  }
  function filter() {
    var text = form.text.value.trim().toLowerCase(), kinds = form.kind.value.split(' '), shown = 0;
    scripts.forEach(function (script) {
      var fits = (!form.kind.value || kinds.indexOf(script.className) >= 0) && has(script, text);
      script.hidden = !fits;
      shown += fits;
    });
    rules.forEach(function (rule) { rule.hidden = !has(rule, text); });
    told.textContent = shown + ' of ' + scripts.length + ' scripts';
  }
  form.addEventListener('input', filter);
  form.addEventListener('submit', function (event) { event.preventDefault(); });
  function reveal() {
    var line = location.hash && document.getElementById(location.hash.slice(1));
    for (var part = line; part; part = part.parentElement) if (part.tagName === 'DETAILS') part.open = true;
    if (line) line.scrollIntoView({ block: 'center' });
  }
  addEventListener('hashchange', reveal);
  filter();
  reveal();
}());
"""
