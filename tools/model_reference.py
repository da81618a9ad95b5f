"""A reading of botocore's model files by the rules of docs/rules/models.md, written apart from the crate.

result(document) is the first fault with its place, or OK; lines(document) is each operation's command
with the refusal of its admission.
"""
import re
class Fault(Exception):
    def __init__(s,kind,place): s.kind=kind; s.place=place
def join(p,k): return f"{p}.{k}" if p else str(k)
def need(o,k,p):
    if k not in o: raise Fault("Missing",join(p,k))
    return o[k]
def obj(v,p):
    if not isinstance(v,dict): raise Fault("WrongKind",p)
    return v
def text(v,p):
    if not isinstance(v,str): raise Fault("WrongKind",p)
    return v
def opt_text(o,k,p):
    if k not in o: return None
    return text(o[k],join(p,k))
def opt_bool(o,k,p):
    if k not in o: return False
    if not isinstance(o[k],bool): raise Fault("WrongKind",join(p,k))
    return o[k]
def texts(v,p):
    if not isinstance(v,list): raise Fault("WrongKind",p)
    for i,x in enumerate(v): text(x,join(p,i))
    return v
def sub(o,k,p):
    """an object at k, or None where absent"""
    if k not in o: return None
    return obj(o[k],join(p,k))
KINDS={"structure":"Structure","list":"List","map":"Map","string":"Str","character":"Str","integer":"Integer","long":"Long","bigInteger":"Long","float":"Float","double":"Double","bigDecimal":"Double","boolean":"Boolean","blob":"Blob","timestamp":"Timestamp"}
TIMES={"unixTimestamp","rfc822","iso8601"}
LOCS={"uri","querystring","header","headers","statusCode"}
def xform4(name):
    if '-' in name: return name
    m=re.search(r'[A-Z]{2,}s$',name)
    s=name
    if m: s=name[:m.start()]+'-'+m.group().lower()
    s=re.sub(r'(.)([A-Z][a-z]+)',r'\1-\2',s, flags=re.S)
    s=re.sub(r'([a-z0-9])([A-Z])',r'\1-\2',s)
    return ''.join(c.lower() if 'A'<=c<='Z' else c for c in s)
def labels_in(text):
    """names in braces; a brace without its partner is text"""
    out=[]; i=0
    while True:
        a=text.find('{',i)
        if a<0: break
        b=text.find('}',a)
        if b<0: break
        out.append(text[a+1:b]); i=b+1
    return out
def labels(uri):
    """those of a URI stand before its query"""
    return labels_in(uri.split('?',1)[0])
host_labels=labels_in
SCALAR=lambda k: k not in (None,"Structure","List","Map")
class Ref:
    def __init__(s,doc):
        if not isinstance(doc,dict): raise Fault("WrongKind","")
        for k in ("metadata","operations","shapes"):
            need(doc,k,""); obj(doc[k],k)
        s.shapes=doc["shapes"]; s.md=doc["metadata"]
        s.metadata(); s.ops=[]; s.seen={}
        for n,o in doc["operations"].items(): s.operation(n,o)
        for n,sh in s.shapes.items(): s.shape(n,sh)
    def metadata(s):
        m=s.md;p="metadata"
        if "protocol" in m: text(m["protocol"],"metadata.protocol")
        elif "protocols" not in m: raise Fault("Missing","metadata.protocol")
        if "protocols" in m: texts(m["protocols"],"metadata.protocols")
        if "protocols" in m: l=m["protocols"]; s.protocol="json" if "json" in l else "rest-json" if "rest-json" in l else "other"
        else: s.protocol=m["protocol"] if m["protocol"] in("json","rest-json") else "other"
        for k in("jsonVersion","targetPrefix"):
            if k in m: text(m[k],join(p,k))
            elif s.protocol=="json": raise Fault("Missing",join(p,k))
        text(need(m,"endpointPrefix",p),"metadata.endpointPrefix")
        opt_text(m,"signingName",p); s.sigv=opt_text(m,"signatureVersion",p)
    def kind(s,name):
        sh=s.shapes.get(name)
        if not isinstance(sh,dict): return None
        t=sh.get("type")
        return KINDS.get(t) if isinstance(t,str) else None
    def members_loose(s,name):
        sh=s.shapes.get(name)
        if not isinstance(sh,dict) or s.kind(name)!="Structure": return {}
        m=sh.get("members"); return m if isinstance(m,dict) else {}
    def input_name(s,o):
        i=o.get("input")
        if isinstance(i,dict) and isinstance(i.get("shape"),str): return i["shape"]
        return None
    def has_label(s,o,label,hosts):
        for n,m in s.members_loose(s.input_name(o)).items():
            if not isinstance(m,dict): continue
            wire=m.get("locationName",n)
            if hosts:
                if m.get("hostLabel") is True and wire==label: return True
            else:
                if m.get("location")=="uri" and wire==label: return True
        return False
    def ref(s,o,k,p):
        if k not in o: return None
        q=join(p,k); x=obj(o[k],q); t=text(need(x,"shape",q),join(q,"shape"))
        if t not in s.shapes: raise Fault("UnknownShape",join(q,"shape"))
        if s.kind(t)!="Structure": raise Fault("WrongKind",join(q,"shape"))
        return t
    def operation(s,n,o):
        p=join("operations",n); obj(o,p)
        name=text(need(o,"name",p),join(p,"name")); c=xform4(name)
        if c in s.seen: raise Fault("Collides",join(p,"name"))
        s.seen[c]=n
        h=sub(o,"http",p) or ({} if "http" not in o else o["http"])
        hp=join(p,"http")
        text(need(h,"method",hp),join(hp,"method")); uri=text(need(h,"requestUri",hp),join(hp,"requestUri"))
        u=re.sub(r'',"",uri)
        for l in labels(uri):
            l=l[:-1] if l.endswith('+') else l
            if not s.has_label(o,l,False): raise Fault("WrongKind",join(hp,"requestUri"))
        i=s.ref(o,"input",p); out=s.ref(o,"output",p)
        e=sub(o,"endpoint",p); hpfx=None
        if e is not None:
            hpfx=opt_text(e,"hostPrefix",join(p,"endpoint"))
            if hpfx is not None:
                for l in host_labels(hpfx):
                    if not s.has_label(o,l,True): raise Fault("WrongKind",join(p,"endpoint.hostPrefix"))
        at=opt_text(o,"authtype",p)
        auth=texts(o["auth"],join(p,"auth")) if "auth" in o else None
        sp=sub(o,"staticContextParams",p)
        if sp is not None:
            for k,v in sp.items():
                q=join(join(p,"staticContextParams"),k); obj(v,q); x=need(v,"value",q)
                if not isinstance(x,(str,bool)): raise Fault("WrongKind",join(q,"value"))
        unsigned=(at=="none") or auth==["smithy.api#noAuth"]
        s.ops.append((n,name,c,i,out,unsigned,at,auth,o))
    def target(s,o,k,p):
        q=join(p,k) if k else p
        t=text(need(o,"shape",q),join(q,"shape"))
        if t not in s.shapes: raise Fault("UnknownShape",join(q,"shape"))
        return t
    def shape(s,n,sh):
        p=join("shapes",n); obj(sh,p)
        t=text(need(sh,"type",p),join(p,"type"))
        if t not in KINDS: raise Fault("WrongKind",join(p,"type"))
        k=KINDS[t]
        if k=="Structure":
            ms=obj(need(sh,"members",p),join(p,"members"))
            for mn,m in ms.items(): s.member(join(join(p,"members"),mn),mn,m)
            if "required" in sh:
                l=sh["required"]
                if not isinstance(l,list): raise Fault("WrongKind",join(p,"required"))
                for i,x in enumerate(l):
                    q=join(join(p,"required"),i); text(x,q)
                    if x not in ms: raise Fault("WrongKind",q)
            if "payload" in sh:
                x=text(sh["payload"],join(p,"payload"))
                if x not in ms: raise Fault("WrongKind",join(p,"payload"))
            for b in("union","document","exception","eventstream"): opt_bool(sh,b,p)
        elif k=="List":
            q=join(p,"member"); x=sub(sh,"member",p)
            if x is None: raise Fault("Missing",join(q,"shape"))
            s.target(x,None,q)
        elif k=="Map":
            for kk in("key","value"):
                q=join(p,kk); x=sub(sh,kk,p)
                if x is None: raise Fault("Missing",join(q,"shape"))
                t2=s.target(x,None,q)
                if kk=="key" and s.kind(t2)!="Str": raise Fault("WrongKind",join(q,"shape"))
        if "timestampFormat" in sh:
            x=text(sh["timestampFormat"],join(p,"timestampFormat"))
            if x not in TIMES: raise Fault("WrongKind",join(p,"timestampFormat"))
    def item_kind(s,name,key):
        sh=s.shapes.get(name); x=sh.get(key) if isinstance(sh,dict) else None
        if isinstance(x,dict) and isinstance(x.get("shape"),str): return s.kind(x["shape"]),x["shape"]
        return None,None
    def fits(s,loc,t):
        k=s.kind(t)
        if loc=="statusCode": return True
        if loc=="headers": return k=="Map" and s.item_kind(t,"value")[0]=="Str"
        if SCALAR(k): return True
        if loc=="uri": return False
        if k=="List" and SCALAR(s.item_kind(t,"member")[0]): return True
        if loc=="header": return False
        if k=="Map":
            vk,vn=s.item_kind(t,"value")
            if SCALAR(vk): return True
            if vk=="List" and SCALAR(s.item_kind(vn,"member")[0]): return True
        return False
    def member(s,p,n,m):
        obj(m,p); t=s.target(m,None,p)
        if "location" in m:
            x=text(m["location"],join(p,"location"))
            if x not in LOCS or not s.fits(x,t): raise Fault("WrongKind",join(p,"location"))
        opt_text(m,"locationName",p)
        if "timestampFormat" in m:
            x=text(m["timestampFormat"],join(p,"timestampFormat"))
            if x not in TIMES: raise Fault("WrongKind",join(p,"timestampFormat"))
        opt_bool(m,"idempotencyToken",p); opt_bool(m,"jsonvalue",p)
        if opt_bool(m,"hostLabel",p) and not SCALAR(s.kind(t)): raise Fault("WrongKind",join(p,"hostLabel"))
        c=sub(m,"contextParam",p)
        if c is not None: text(need(c,"name",join(p,"contextParam")),join(p,"contextParam.name"))
def result(doc):
    try: r=Ref(doc)
    except Fault as f: return f"{f.kind} {f.place}"
    return "OK"
def reached(r,start):
    seen=[];work=[start] if start else []
    while work:
        n=work.pop()
        if n in seen: continue
        seen.append(n); sh=r.shapes[n]; k=r.kind(n)
        if k=="Structure": work+= [m["shape"] for m in sh["members"].values()]
        if k=="List": work.append(sh["member"]["shape"])
        if k=="Map": work+=[sh["key"]["shape"],sh["value"]["shape"]]
    return seen
def admit(r,op):
    n,name,c,i,out,unsigned,at,auth,o=op
    if r.protocol=="other": return "Protocol"
    names=set(reached(r,i))|set(reached(r,out))
    if any(r.shapes[x].get("eventstream") is True and r.kind(x)=="Structure" for x in names): return "Events"
    if (not unsigned and r.sigv!="v4") or (at is not None and at not in("none","v4")) or (auth is not None and "aws.auth#sigv4" not in auth and not unsigned): return "Signature"
    ck=o.get("httpChecksum")
    if o.get("httpChecksumRequired") is True or (isinstance(ck,dict) and ck.get("requestChecksumRequired") is True): return "Checksum"
    d=o.get("endpointdiscovery")
    if isinstance(d,dict) and d.get("required") is True: return "Discovery"
    for x in names:
        if r.kind(x)=="Structure":
            for m in r.shapes[x]["members"].values():
                if m.get("jsonvalue") is True and (m.get("location")!="header" or r.kind(m["shape"])!="Str"): return "JsonValue"
    if out and "payload" in r.shapes[out] and r.kind(r.shapes[out]["members"][r.shapes[out]["payload"]]["shape"])=="Blob": return "BlobOutput"
    if i:
        ms=r.shapes[i]["members"]
        args=[(xform4(k),r.kind(v["shape"])=="Boolean") for k,v in ms.items()]
        for a,(x,bx) in enumerate(args):
            for b,(y,by) in enumerate(args):
                if a==b: continue
                if x==y or (by and x=="no-"+y) or (bx and y=="no-"+x): return "SameArgument "+x
    return "Ok"
def lines(doc):
    try: r=Ref(doc)
    except Fault as f: return f"{f.kind} {f.place}"
    return "; ".join(f"{op[2]}={'unsigned ' if op[5] else ''}{admit(r,op)}" for op in r.ops)
