import sys,subprocess,random
sys.dont_write_bytecode=True
from importlib.machinery import SourceFileLoader
r=SourceFileLoader("rnd","/work/scratch/s/tests/random").load_module()
seed=int(sys.argv[1]); n=int(sys.argv[2]); draw=random.Random(seed*7+1)
bad=0; kinds={}
for i,job in enumerate(r.random_jobs(seed,n)):
    if isinstance(job,tuple): job=[x for x in job if isinstance(x,(bytes,str))][0]
    if isinstance(job,str): job=job.encode()
    if i%3==0: words=["--stop-after","1000000","--journal"]+[]+(["--commit-every",str(draw.choice([1,3,10]))] if draw.random()<.5 else [])
    else:
        words=["--threads",str(draw.randrange(1,5))]
        if draw.random()<.5: words+=["--instances",str(draw.randrange(1,4)),"--standbys",str(draw.randrange(0,3))]
        if draw.random()<.4: words+=["--chaos",str(draw.randrange(1000))]
        if draw.random()<.4: words+=["--commit-every",str(draw.choice([1,2,7,30]))]
    o=[]
    for e in ("./e_base","./e_new"):
        try: p=subprocess.run([e,*words],input=job,capture_output=True,timeout=100); o.append((p.stdout,p.returncode,p.stderr))
        except subprocess.TimeoutExpired: o.append((b"timeout",0,b""))
    k=o[0][0].split(b"\n")[0].split(b" ")[0]; kinds[k]=kinds.get(k,0)+1
    same = o[0][:2]==o[1][:2] or (k==b"late" and i%3)
    if not same:
        bad+=1
        if bad<3: open(f"/tmp/s/bad{i}.jsonl","wb").write(job); print("DIFF",i,words,o[1][2][:200],o[0][0][:60],o[1][0][:60])
print("jobs",n,"different",bad,kinds)
