# the page of a program without items: what is the same for each page, and its source
$ ompc view nothing.c
<!DOCTYPE html>
<html lang=en>
<head>
<meta charset=utf-8>
<meta http-equiv=Content-Security-Policy content="default-src 'none';style-src 'unsafe-inline'">
<meta name=viewport content="width=device-width">
<title>nothing.c</title>
<style>
:root{color-scheme:light dark;--bg:#fff;--fg:#1b1f24;--mut:#5b6470;--line:#dde1e6;--lit:#fff3c4;
--lost:#d1242f;--red:#c5221f;--redbg:#fdeceb;--amb:#b26a00;--ambbg:#fff6e5;--grn:#1a7f37;--grnbg:#e9f7ed;--dir:#6e3fb0;
--h0:#2468d6;--h1:#d57a00;--h2:#0e8a72;--h3:#8a4fd0;--h4:#c43c80;--it:14rem;--w:6.6rem;
--mono:ui-monospace,"Cascadia Mono","DejaVu Sans Mono",Menlo,Consolas,monospace}
@media (prefers-color-scheme:dark){:root{--bg:#15181c;--fg:#e3e6ea;--mut:#9aa4b0;--line:#30363d;--lit:#4a4115;
--lost:#ff5c55;--red:#ff7b72;--redbg:#3a1c1d;--amb:#e3a33b;--ambbg:#33270f;--grn:#56d364;--grnbg:#12301c;--dir:#c4a1f5;
--h0:#6ea8ff;--h1:#f0a13c;--h2:#3fc7a8;--h3:#bb8cf5;--h4:#f07fb2}}
*{box-sizing:border-box}
body{margin:0;background:var(--bg);color:var(--fg);font:15px/1.45 system-ui,sans-serif}
a{color:inherit;text-decoration-color:var(--mut);text-underline-offset:2px}
small{color:var(--mut);font-size:.85em;white-space:nowrap}
header{padding:.7rem 1rem;border-bottom:1px solid var(--line)}
h1{display:inline;font:600 1.05rem var(--mono);margin:0 .7rem 0 0;overflow-wrap:anywhere}
.v{border-radius:1rem;padding:.1rem .7rem;font-weight:600}
.ok{color:var(--grn);background:var(--grnbg)}
.no{color:var(--red);background:var(--redbg)}
.sum{margin:.35rem 0 0;overflow-wrap:anywhere}
.sum a{color:var(--red);font-weight:600}
.lg{margin:.45rem 0 0;color:var(--mut);font-size:.87em}
.lg .b{display:inline-block;width:2rem;vertical-align:-1px;margin:0 .25rem 0 .6rem}
.two{display:grid;grid-template-columns:minmax(20rem,36%) minmax(0,1fr)}
.src{padding:.5rem 0;border-right:1px solid var(--line);font:13px/1.5 var(--mono);min-width:0}
.l{display:flex}
.l code{font:inherit;white-space:pre-wrap;overflow-wrap:anywhere;tab-size:4;unicode-bidi:isolate;
min-width:0;padding-right:.6rem}
.n{flex:none;width:3.6rem;padding-right:.9rem;text-align:right;color:var(--mut);user-select:none}
.p code{color:var(--dir);font-weight:600}
.e{background:var(--redbg);box-shadow:inset 3px 0 var(--red)}
.e b{color:var(--red);text-decoration:underline wavy var(--red)}
.o{box-shadow:inset 3px 0 var(--amb)}
.l:target,.r:target{background:var(--lit)}
section{min-width:0;overflow:auto;padding-bottom:2rem}
.tb{width:max(100%,calc(var(--it) + var(--n)*var(--w)))}
.r{display:grid;grid-template-columns:var(--it) repeat(var(--n),minmax(0,13rem));
border-bottom:1px solid var(--line);padding:.3rem 0;scroll-margin-top:5rem}
.hd{position:sticky;top:0;z-index:2;background:var(--bg)}
.hd .f{color:var(--c);font-size:.85em;font-weight:600}
.ar{font-family:var(--mono);padding-left:.4rem}
.it{position:sticky;left:0;z-index:1;background:inherit;padding:0 .6rem 0 1rem;overflow-wrap:anywhere}
.r{background:var(--bg)}
.it i{display:inline-block;min-width:1.6rem;font-style:normal;color:var(--mut);font-variant-numeric:tabular-nums}
.it a{text-decoration:none;font-weight:600}
.f{position:relative;margin:0 .4rem;min-width:0}
.s0{--c:var(--h0)}
.s1{--c:var(--h1)}
.s2{--c:var(--h2)}
.s3{--c:var(--h3)}
.s4{--c:var(--h4)}
.b{--p:color-mix(in srgb,var(--c) 25%,transparent);display:block;height:.72rem;margin:.22rem 0;border-radius:2px;
box-shadow:0 0 0 1px var(--line)}
.u{opacity:.4}
.f u{position:absolute;top:0;height:1.16rem;border:2px solid var(--red);
background:color-mix(in srgb,var(--red) 30%,transparent)}
.f s{position:absolute;top:.22rem;height:.72rem;min-width:3px;border-radius:1px;background:var(--c)}
.f .q{background:color-mix(in srgb,var(--c) 40%,transparent)}
.f .z{background:repeating-linear-gradient(90deg,var(--c) 0 2px,transparent 2px 4px)}
.tn{display:flex;flex-wrap:wrap;align-items:center;box-shadow:inset 3px 0 var(--line)}
.tn .m{flex:0 0 100%}
.tn input{margin:.1rem .12rem;width:.8rem;height:.8rem;accent-color:var(--mut)}
.tn .m+input{margin-left:1rem}
.tn .v{padding:0;accent-color:var(--red);outline:2px solid var(--red)}
.tp{order:1;flex:0 0 100%}
.tn input+.tp{display:none}
.tn input:checked+.tp{display:grid}
.k{display:inline-block;font:12px/1.3 var(--mono);color:var(--mut);margin-right:.15rem}
.a{color:var(--fg);font-weight:600}
.w{color:var(--c);font-weight:700}
.x{color:var(--bg);background:var(--red);border-radius:3px;padding:0 .25rem;font-weight:700}
.bad{background:var(--redbg)}
.bad .it{box-shadow:inset 3px 0 var(--red)}
.other{background:var(--ambbg)}
.other .it{box-shadow:inset 3px 0 var(--amb)}
details{box-shadow:inset 3px 0 var(--line)}
summary,.m{position:sticky;left:0;width:max-content;margin:0;padding:.35rem 1rem;color:var(--mut)}
summary{cursor:pointer}
.d{position:sticky;left:0;max-width:52rem;width:calc(100% - 1.5rem);margin:.5rem .75rem;padding:.5rem .9rem;
background:var(--redbg);border-left:3px solid var(--red);border-radius:3px}
.d p{margin:.2rem 0;overflow-wrap:anywhere}
.d code{font:.92em var(--mono)}
.d>code{display:block;white-space:pre-wrap;overflow-wrap:anywhere;padding:0 .4rem}
.h b,.t{color:var(--red)}
.g{background:var(--grnbg);border-color:var(--grn)}
.g .h b{color:var(--grn)}
.y{background:var(--ambbg);border-color:var(--amb)}
.y .h b{color:var(--amb)}
.old{color:var(--red)}
.new{color:var(--grn)}
@media (min-width:60rem){body{height:100vh;display:flex;flex-direction:column}
.two{flex:1;min-height:0}
.src,section{overflow:auto}}
@media (max-width:60rem){.two{display:block}.src{border-right:0;border-bottom:1px solid var(--line)}.it{position:static}
:root{--it:10rem;--w:6rem}}
:root{--n:1}
</style>
</head>
<body>
<header>
<h1>nothing.c</h1>
<span class="v ok">accepted</span>
<p class=lg>after each item:
<i class="b s0" style="background:var(--c)"></i>current here
<i class="b s0" style="background:var(--p)"></i>stored here, current elsewhere
<i class="b" style="background:var(--lost)"></i>current nowhere
<i class="b"></i>not stored here;
what the item does: + enters, − leaves, with the count then; → copied to the device, ← to the host;
r may read, w may write</p>
</header>
<div class=two>
<main class=src>
<div class="l" id=L1><span class=n>1</span><code>int main(void) {}</code></div>
</main>
<section>
<p class=m>the program has no items</p>
</section>
</div>
</body>
</html>

# a source that is not there
$ ompc view absent.c
! cannot read absent.c
[2]
