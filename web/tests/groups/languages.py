"""English and German from one table: every key in both with the same values put in; the language is the browser's."""
import json, os, re, subprocess

WEB = os.path.dirname(os.path.dirname(os.path.dirname(os.path.abspath(__file__))))


def run(p):
    code = f"Promise.all(['en', 'de'].map(l => import(`{WEB}/src/texts/${{l}}.js`))).then(t => console.log(JSON.stringify(t.map(m => m.default))))"
    en, de = json.loads(subprocess.run(['node', '-e', code], capture_output=True, text=True, check=True).stdout)
    p.same('the same keys', sorted(en), sorted(de))
    for k in sorted(set(en) & set(de) - {'refusals'}):
        p.hold(f'{k}: the same values', sorted(set(re.findall(r'\{\w+\}', en[k]))) == sorted(set(re.findall(r'\{\w+\}',
            de[k]))) and len(en[k].split('|')) == len(de[k].split('|')), (en[k], de[k]))
    p.hold('a meaning of each refusal that a person can meet', {str(n) for n in [*range(1, 15), 16, 18, *range(22, 32)]} <= set(de['refusals']),
        sorted(de['refusals']))

    p.cdp('Emulation.setUserAgentOverride', {'userAgent': p.js("return navigator.userAgent"), 'acceptLanguage': 'de-AT,de,en'})
    p.fresh()
    p.same('the browser speaks German', p.js("return [navigator.language, document.documentElement.lang, document.title]"), ['de-AT', 'de', 'Flugdateien'])
    p.flight(p.path('officer.igc'))
    p.same('the verdict in German', [p.text('verdict-title'), p.text('signed')], ['✓Angenommen', 'Signiert: hat einen G-Code'])
    seen = p.js("return document.body.innerText")
    english = [w for w in ['Accepted', 'Barogram\n', 'Evening', 'Whole flight', 'Turn point', 'Pilot and', 'pressure', 'Open a'] if w in seen]
    p.same('no English is left', english, [])
    p.click('find-gain')
    p.hold('a decimal comma', re.fullmatch(r'\d+,\d\d\u202fkm', p.text('g-distance')), p.text('g-distance'))
    p.flight(p.path('refused.igc'))
    p.hold('a refusal: the library\'s words and what they mean',
        'REFUSED 23 POSITION' in p.text('flight') and 'Breite oder Länge verstößt gegen ihre Regel.' in p.text('flight'), p.text('flight'))
    p.many([p.path('hundred', '00_LS.igc'), p.path('hundred', '07_K6.igc')])
    lines = p.saved('flights.csv', lambda: p.click('table-csv')).decode()
    p.hold('the CSV is the same in every language', lines.startswith('file,check,date') and ',accepted,' in lines, lines)
    p.cdp('Emulation.setUserAgentOverride', {'userAgent': p.js("return navigator.userAgent"), 'acceptLanguage': 'fr-FR,fr'})
    p.fresh()
    p.same('another language: English', p.d.title, 'Flight files')
    p.fresh(words='#lang=de')
    p.same('asked for by the address', p.d.title, 'Flugdateien')
    p.cdp('Emulation.setUserAgentOverride', {'userAgent': p.js("return navigator.userAgent"), 'acceptLanguage': 'en-GB,en'})
