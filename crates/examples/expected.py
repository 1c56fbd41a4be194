"""The expected output of the program `examples`, by other methods than the engine's: the pair and the factors are found by solving a
linear system for each column. Writes what crates/examples/stdout holds."""
def least(p):
    d=2
    while d*d<=p:
        if p%d==0: return d
        d+=1
    return p
def mod(p):
    if p<2 or p>16777215: return (1,0)
    if least(p)<p: return (2,least(p))
def operands(p,xs):
    r=mod(p)
    if r: return r
    for i,x in enumerate(xs):
        if x>=p: return (6,i)
def show(r,v,p): return f"refused {r[0]} {r[1]}" if r else f"{v} mod {p}"
for p,a,b in [(7,3,5),(65521,65520,65520),(16777213,16777212,16777212),(7,7,5),(7,6,7),(7,8,9),(7,0,0),(91,0,200),(1,0,0),(65536,70000,0),(16777215,0,0),(16777216,0,0),(4294967295,)*3,(2,1,1)]:
    r=operands(p,[a,b])
    print("sum",show(r,(a+b)%p,p)); print("difference",show(r,(a-b)%p,p)); print("product",show(r,a*b%p,p))
    r=operands(p,[a]) or ((12,0) if a==0 else None)
    print("inverse",show(r,r or pow(a,-1,p),p))
def inputs(p,n,fs,bounds,outb):
    r=mod(p)
    if r: return r
    if max(bounds+[outb])>32: return (3,0)
    if not 1<=n<=256: return (4,0)
    for f,b in zip(fs,bounds):
        if len(f)!=(b+1)*n: return (5,0)
    i=0
    for f in fs:
        for x in f:
            if x>=p: return (6,i)
            i+=1
def say(r,n,ans,buf):
    if r: print(f"refused {r[0]} {r[1]}:",*buf)
    else:
        buf[:len(ans)]=ans; print(f"done {n}:",*buf)
def unknown(n,known,row): return not 1<=known<=n or any(row[known:])
def series(op,p,n,g,h,buf,counts=None):
    hs=[h] if h is not None else []
    counts=counts or (n,n)
    r=inputs(p,n,[g]+hs,[0]*(1+len(hs)),0)
    if not r and op in('sum','mul') and (unknown(n,counts[0],g) or unknown(n,counts[1],h)): r=(21,0)
    r=r or ((10,n) if len(buf)<n else None)
    div=h if op=='div' else g
    known=n
    if not r and op=='inv' and div[0]==0: r=(12,0)
    if not r and op=='div': # X is cancelled as long as the divisor begins with 0
        f=g
        while div and div[0]==0 and f[0]==0: f,div=f[1:],div[1:]
        known=len(div)
        if not div or div[0]==0: r=(12,0)
    a=None
    if not r:
        if op=='sum': a=[(x+y)%p for x,y in zip(g,h)]
        if op=='diff': a=[(x-y)%p for x,y in zip(g,h)]
        if op=='mul': a=[sum(g[i]*h[t-i] for i in range(t+1))%p for t in range(n)]
        if op in('sum','mul'): a=[x if t<counts[0] and t<counts[1] else 0 for t,x in enumerate(a)]
        if op in('div','inv'):
            if op=='inv': f=[1]+[0]*(n-1)
            d=div; a=[]
            for t in range(known): a.append((f[t]-sum(d[i]*a[t-i] for i in range(1,t+1)))*pow(d[0],-1,p)%p)
            a+=[0]*(n-known)
    say(r,known,a,buf)
g=[1,2,3];h=[4,5,6];buf=[9]*4
series('sum',7,3,g,h,buf);series('diff',7,3,g,h,buf);series('mul',7,3,g,h,buf);series('div',7,3,g,h,buf);series('inv',7,3,h,None,buf)
buf=[9]*4;short=[9]*2
a,b=[1,2,0],[3,2,1]
series('sum',7,3,a,b,buf,(2,3));series('mul',7,3,a,b,buf,(2,3));series('mul',7,3,b,a,buf,(3,2));series('mul',7,3,a,b,buf,(2,2))
series('sum',7,3,a,b,buf,(0,3));series('sum',7,3,a,b,buf,(3,4));series('mul',7,3,a,b,short,(1,3));series('mul',7,3,[3,7,0],b,short,(1,3))
buf=[9]*4
for a,b in ([0,1,1],[0,1,0]),([0,0,0],[0,5,6]),([0,0,6],[0,0,2]),([0,0,6],[0,5,6]),([0,0,0],[0,0,0]): series('div',7,3,a,b,buf)
zero=[0,5,6];large=[4,9,7];buf=[9]*4;short=[9]*2
series('div',7,3,g,zero,buf);series('div',7,3,g,zero,short);series('inv',7,3,zero,None,short)
series('mul',7,3,g,large,buf);series('mul',7,3,large,g,buf);series('mul',7,4,g,large,buf);series('mul',7,257,g,large,buf);series('mul',6,0,g,large,buf)
def rows(f,n): return [f[i:i+n] for i in range(0,len(f),n)]
def rmul(p,F,G,n):
    R=[[0]*n for _ in range(len(F)+len(G)-1)]
    for i,a in enumerate(F):
        for j,b in enumerate(G):
            for s in range(n):
                for u in range(n-s): R[i+j][s+u]=(R[i+j][s+u]+a[s]*b[u])%p
    return sum(R,[])
def rowmul(p,d,e,n,f,g,buf):
    r=inputs(p,n,[f,g],[d,e],d+e)
    if not r and len(buf)<(d+e+1)*n: r=(10,(d+e+1)*n)
    say(r,(d+e+1)*n,None if r else rmul(p,rows(f,n),rows(g,n),n),buf)
from math import comb
def rowshift(p,d,n,f,c,buf):
    r=inputs(p,n,[f],[d],d) or ((6,(d+1)*n) if c>=p else None) or ((10,(d+1)*n) if len(buf)<(d+1)*n else None)
    a=None
    if not r:
        F=rows(f,n); a=[sum(F[i][t]*comb(i,j)*c**(i-j) for i in range(j,d+1))%p for j in range(d+1) for t in range(n)]
    say(r,(d+1)*n,a,buf)
f=[1,1,1,0];g=[2,0,0,3,1,0];buf=[9]*9
rowmul(5,1,2,2,f,g,buf);rowshift(5,2,2,g,3,buf);rowshift(5,2,2,g,5,buf)
say(None,4,[(x+x)%5 for x in f],buf)
rowmul(5,4294967295,1,2,f,f,buf);rowmul(5,17,16,2,f,f,buf);rowmul(5,0,0,2,g[1:3],g[3:5],buf)
# the pair by a linear system for each column: unknowns P_t (d rows), A_t (D-d+1 rows)
def solve(p,M,v):
    n=len(v); M=[r[:]+[x] for r,x in zip(M,v)]
    for c in range(n):
        q=next(i for i in range(c,n) if M[i][c]%p); M[c],M[q]=M[q],M[c]
        inv=pow(M[c][c],-1,p); M[c]=[x*inv%p for x in M[c]]
        for i in range(n):
            if i!=c and M[i][c]: k=M[i][c]; M[i]=[(x-k*y)%p for x,y in zip(M[i],M[c])]
    return [r[-1] for r in M]
def thepair(p,D,n,f,w):
    F=rows(f,n); d=next(j for j in range(D+1) if F[j][0])
    P=[[0]*n for _ in range(d)]; A=[[0]*n for _ in range(D-d+1)]
    for j in range(D-d+1): A[j][0]=F[d+j][0]
    for t in range(1,w):
        M=[[0]*(D+1) for _ in range(D+1)]
        for i in range(d):
            for j in range(D-d+1): M[i+j][i]=(M[i+j][i]+A[j][0])%p
        for j in range(D-d+1): M[d+j][d+j]=1
        E=[(F[j][t]-sum(P[i][s]*A[j-i][t-s] for i in range(d) if 0<=j-i<=D-d for s in range(1,t)))%p for j in range(D+1)]
        x=solve(p,M,E)
        for i in range(d): P[i][t]=x[i]
        for j in range(D-d+1): A[j][t]=x[d+j]
    return d,sum(P+A,[])
def first(p,D,n,f,buf):
    r=inputs(p,n,[f],[D],D)
    if r: return r
    if len(buf)<(D+1)*n: return (10,(D+1)*n)
    if all(f[j*n]==0 for j in range(D+1)): return (11,0)
def pair(p,D,n,f,h,w,buf):
    r=first(p,D,n,f,buf)
    if not r and h and (h>n or buf[:(D+1)*n]!=thepair(p,D,n,f,h)[1]): r=(13,0)
    r=r or (None if 1<=w<=n else (14,0)) or ((15,0) if w<h else None)
    if r: say(r,0,None,buf)
    else:
        d,a=thepair(p,D,n,f,w); say(None,d,a,buf)
buf=[9]*13
f=[0,1,0,0,1,0,0,0,1,0,0,0]
for h,w in ((0,4),(0,2),(2,4),(4,3),(4,5),(4,0),(3,4),(5,4),(4,4)): pair(5,2,4,f,h,w,buf)
flat=[0,1,0,0,0,3,0,0,0,0,0,2]
pair(5,2,4,flat,0,0,buf);pair(5,2,4,flat,0,0,[9]*11)
pair(5,2,4,[0,2,1,0,0,3,4,1,3,1,0,2],0,4,buf);pair(5,0,4,[3,1,4,1],0,4,buf);pair(5,2,4,[0,1,2,0,1,0,3,1,0,1,0,4],0,4,buf)
f=[0]*768; f[1]=f[256]=f[259]=f[512]=f[513]=1
pair(2,2,256,f,0,256,[9]*769)

# sheets: the factors by a linear system for all lower rows of all factors, column by column
def polymul(p,a,b):
    r=[0]*(len(a)+len(b)-1)
    for i,x in enumerate(a):
        for j,y in enumerate(b): r[i+j]=(r[i+j]+x*y)%p
    return r
def factors(p,D,n,f,roots,powers,k):
    """monic factors as lists of columns, each a list of coefficients"""
    r=len(roots); F=rows(f,n)
    fac=[]
    for c,m in zip(roots,powers):
        a=[1]
        for _ in range(m): a=polymul(p,a,[-c%p,1])
        fac.append([a]+[[0]*(m+1) for _ in range(n-1)])
    for t in range(1,k):
        # the coefficient of X^t of the product, with the unknown columns 0
        def prodcol(t):
            P=[[1]+[0]*D]+[[0]*(D+1) for _ in range(t)]
            for g in fac:
                Q=[[0]*(D+1) for _ in range(t+1)]
                for s in range(t+1):
                    for u in range(t+1-s):
                        for i,x in enumerate(P[s]):
                            if x:
                                for j,y in enumerate(g[u]):
                                    if y and i+j<=D: Q[s+u][i+j]=(Q[s+u][i+j]+x*y)%p
                P=Q
            return P[t]
        base=prodcol(t)
        M=[[0]*D for _ in range(D)]; col=0; cols=[]
        for i in range(r):
            others=[1]
            for l in range(r):
                if l!=i: others=polymul(p,others,fac[l][0])
            for j in range(powers[i]):
                for e,x in enumerate(others): M[e+j][col]=x
                cols.append((i,j)); col+=1
        x=solve(p,M,[(F[e][t]-base[e])%p for e in range(D)])
        for (i,j),v in zip(cols,x): fac[i][t][j]=v
    return fac
def sheet(p,D,n,f,roots,powers,k,lengths=None):
    lengths=lengths or [n]*D
    fac=factors(p,D,n,f,roots,powers,k); r=len(roots)
    fr=[fac[i][t][j] if t<k else 0 for i in range(r) for j in range(powers[i]) for t in range(n)]
    o5=11+D; o6=o5+2*r; o7=o6+(D+1)*n; T=o7+len(fr)
    return [p,D,n,k,r,o5,o6,o7,T,T,min(lengths)]+lengths+sum(([c,m] for c,m in zip(roots,powers)),[])+f+fr
def compositions(D,r):
    if r==0: return [[]] if D==0 else []
    return [[m]+rest for m in range(1,D+1) for rest in compositions(D-m,r-1)]
def opened(p,D,n,f,roots,room,lengths=None):
    lengths=lengths if lengths is not None else [n]*D
    """the refusal, or the sheet with one term; the powers by trying all"""
    r=mod(p)
    if r: return r,None
    if not 1<=D<=32: return (3,0),None
    if not 1<=n<=256: return (4,0),None
    if len(f)!=(D+1)*n or len(lengths)!=D: return (5,0),None
    for i,x in enumerate(f+roots):
        if x>=p: return (6,i),None
    if any(unknown(n,m,row) for m,row in zip(lengths,rows(f,n))): return (21,0),None
    if f[D*n:]!=[1]+[0]*(n-1): return (7,0),None
    if not 1<=len(roots)<=D or any(a>=b for a,b in zip(roots,roots[1:])): return (8,0),None
    for powers in compositions(D,len(roots)):
        a=[1]
        for c,m in zip(roots,powers):
            for _ in range(m): a=polymul(p,a,[-c%p,1])
        if a==f[::n]:
            s=sheet(p,D,n,f,roots,powers,1,lengths)
            return ((10,len(s)),None) if room<len(s) else (None,s)
    return (9,0),None
def opens(p,D,n,f,roots,buf,lengths=None):
    r,s=opened(p,D,n,f,roots,len(buf),lengths)
    say(r,s and len(s),s,buf)
job=(7,2,3,[6,6,0,0,0,0,1,0,0],[1,6],[1,1])
three=(5,4,4,[0,1,2,3,2,4,0,1,2,0,3,0,0,2,2,2,1,0,0,0],[0,1,3],[1,2,1])
opens(*job[:5],[99]*31)
opens(*job[:5],[99]*33)
print("sound")
for k,w in ((2,2),(3,3)): print(f"done {w}:",*(sheet(*job,k)+[99]))
s=sheet(*job,3)+[99]
for r in ("15 0","14 0","13 0"): print(f"refused {r}:",*s)
print("",*s[29:32])
s[27]=5
print("not sound"); print("refused 13 0:",*s)
opens(*job[:5],[99]*33)
answers=[0,2,13,0,0,3,15,0,14,0,9]
print("done 10:",*answers)
print("",*(sheet(*job,3)+[99]))
print("refused 5 0:",*answers)
print("refused 10 10:",*[9]*9)
opens(*job[:5],[99]*33,[2,3])
print("refused 14 0:",*(sheet(*job,1,[2,3])+[99])); print("done 2:",*(sheet(*job,2,[2,3])+[99]))
print("sound"); print("not sound"); print("sound") # with both words changed it is the sheet of the job, at two terms
for lengths in ([0,3],[2,4],[1,3],[2,1],[2]): opens(*job[:4],[6,1],[9]*3,lengths)
opens(*three[:5],[9]*58)
s=sheet(*three,4)+[9]
print("done 4:",*s); print("sound")
part=s[45:53]; buf=[9]*9
rowshift(5,1,4,part,3,buf);rowmul(5,1,0,4,part,[1,1,0,0],buf);rowshift(5,1,4,part,5,buf);say((16,0),0,None,buf)
print("not sound"); print("not sound")
f=[0]*32+[1]
for D in (33,0,32): opens(7,D,1,f,[0],[9]*111)
f=[0]*512; f[1]=f[256]=1
for n in (257,256): opens(7,1,n,f,[0],[9]*783)
print("refused 14 0:",*(sheet(7,1,256,f,[0],[1],1)+[9]))
print("done 256:",*(sheet(7,1,256,f,[0],[1],256)+[9]))
g,h=[6,0,0,0,1,0],[6,0,0,0,2,0]
for f,roots in ((g,[1]),(g,[1,7]),(g,[6,1]),(g,[1,2,6]),(g,[1,6]),(h,[6,1]),(h,[6,8])): opens(7,2,2,f,roots,[9]*3)
