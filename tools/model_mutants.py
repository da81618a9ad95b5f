"""Writes many changed models to MUTANTS.json and the first fault that each is to have to EXPECTED.txt.

Usage: tools/model_mutants.py MUTANTS.json EXPECTED.txt
"""
import copy, json, pathlib, sys
sys.path.insert(0, str(pathlib.Path(__file__).resolve().parent))
import model_reference as ref
T={"shape":"Text"}
def post(name,i=None,o=None):
    d={"name":name,"http":{"method":"POST","requestUri":"/"}}
    if i: d["input"]={"shape":i}
    if o: d["output"]={"shape":o}
    return d
shelf={"metadata":{"apiVersion":"2024-05-01","protocol":"json","jsonVersion":"1.1","targetPrefix":"Shelf_20240501","endpointPrefix":"shelf","signingName":"shelf","signatureVersion":"v4"},
"operations":{"ListTitles":post("ListTitles","Nothing","TitlesOut"),"ListBooks":post("ListBooks","BooksIn","BooksOut"),"TagBook":{**post("TagBook","TagIn"),"authtype":"none","auth":["smithy.api#noAuth"],"endpoint":{"hostPrefix":"{BookId}."},"staticContextParams":{"A":{"value":True},"B":{"value":"x"}}}},
"shapes":{"Text":{"type":"string"},"Count":{"type":"integer","min":1},"Time":{"type":"timestamp","timestampFormat":"iso8601"},"Nothing":{"type":"structure","members":{}},
"Texts":{"type":"list","member":T},"TitlesOut":{"type":"structure","members":{"Titles":{"shape":"Texts"}}},
"Book":{"type":"structure","members":{"Id":T,"At":{"shape":"Time","timestampFormat":"rfc822"}},"exception":True,"union":True},
"Books":{"type":"list","member":{"shape":"Book"}},"BooksIn":{"type":"structure","members":{"NextToken":T,"MaxResults":{"shape":"Count"}}},
"BooksOut":{"type":"structure","members":{"Books":{"shape":"Books"},"NextToken":T},"payload":"Books"},
"Map":{"type":"map","key":T,"value":{"shape":"Texts"}},
"TagIn":{"type":"structure","required":["BookId","Map"],"members":{"BookId":{"shape":"Text","hostLabel":True,"contextParam":{"name":"Id"},"idempotencyToken":True,"locationName":"BookId"},"Map":{"shape":"Map","jsonvalue":False}}}}}
depot={"metadata":{"protocols":["rest-json","x"],"endpointPrefix":"depot","signatureVersion":"v4"},
"operations":{"GetItem":{"name":"GetItem","http":{"method":"GET","requestUri":"/items/{Name}/{Path+}?a={b}"},"input":{"shape":"ItemIn"},"output":{"shape":"ItemOut"}}},
"shapes":{"Text":{"type":"string"},"Texts":{"type":"list","member":T},"Map":{"type":"map","key":T,"value":T},"Maps":{"type":"map","key":T,"value":{"shape":"Texts"}},"Time":{"type":"timestamp"},"Int":{"type":"integer"},
"ItemIn":{"type":"structure","required":["Name"],"members":{"Name":{"shape":"Text","location":"uri"},"P":{"shape":"Text","location":"uri","locationName":"Path"},"Since":{"shape":"Time","location":"header","locationName":"X-Since"},"Tags":{"shape":"Texts","location":"querystring","locationName":"tag"},"More":{"shape":"Maps","location":"querystring"},"H":{"shape":"Map","location":"headers","locationName":"x-"}}},
"ItemOut":{"type":"structure","members":{"Kind":{"shape":"Text","location":"header"},"Code":{"shape":"Int","location":"statusCode"},"L":{"shape":"Texts","location":"header"}}}}}
def paths(d,p=()):
    yield p
    if isinstance(d,dict):
        for k in d: yield from paths(d[k],p+(k,))
    elif isinstance(d,list):
        for i in range(len(d)): yield from paths(d[i],p+(i,))
def setat(d,p,v,delete=False):
    d=copy.deepcopy(d)
    if not p: return v
    x=d
    for k in p[:-1]: x=x[k]
    if delete: del x[p[-1]]
    else: x[p[-1]]=v
    return d
muts=[]
others=[None,5,True,"Text","Texts","Map","Book","Nope","uri","header","querystring","headers","statusCode","structure","list","map","string","double",[],["Text"],["Name",1],{},{"shape":"Text"},{"shape":"Texts"},{"shape":"Map"},{"shape":"Int"},{"shape":"Nope"},{"type":"structure"},"/{Name}/{","/{Gone}","{BookId}{Gone}."]
for base in (shelf,depot):
    muts.append(base)
    for p in paths(base):
        if p: muts.append(setat(base,p,None,True))
        for v in others: muts.append(setat(base,p,v))
# an added key in every object
    for p in paths(base):
        x=base
        for k in p: x=x[k]
        if isinstance(x,dict):
            for k,v in (("location","header"),("location","headers"),("hostLabel",True),("payload","Nope"),("required",["Nope"]),("input",{"shape":"Text"}),("output",{}),("auth",[1]),("authtype",1),("min","x"),("min",1.5),("timestampFormat","x"),("eventstream",1),("jsonvalue",1),("contextParam",{}),("staticContextParams",{"A":{}}),("staticContextParams",{"A":{"value":1}}),("endpoint",{"hostPrefix":1}),("protocols",1),("protocols",["json"]),("signingName",1),("ListTitle-s",{"name":"ListTitles"})):
                if k not in x: muts.append(setat(base,p+(k,),v))
seen=set(); out=[]
for m in muts:
    t=json.dumps(m)
    if t not in seen: seen.add(t); out.append(m)
json.dump(out,open(sys.argv[1],'w'))
res=[ref.result(m) for m in out]
open(sys.argv[2],'w').write('\n'.join(res)+'\n')
from collections import Counter
print(len(out),Counter(r.split()[0] for r in res))
