module pidtab/cluster

go 1.19

require (
	go.etcd.io/etcd/client/v3 v3.5.9
	google.golang.org/grpc v1.41.0
	pidtab v0.0.0
)

replace pidtab => ../
